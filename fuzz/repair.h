/* Bytes made into well-formed records. */
#ifndef REPAIR_H
#define REPAIR_H

#include <stddef.h>
#include <stdint.h>

enum { LONGEST_RECORD = 12 };
enum { REPAIR_ADDS = 2300 }; /* what repair writes is at most so many bytes longer: the rest of a cut record, and 251 function records */

/* Reads the bytes as records and writes records that no refusal but 7 can meet in an edition with so many labels: a byte that is good where it stands is kept, any other becomes a good
   one that it picks; a record for which there is no good byte is left out. A well-formed file is therefore kept as it is. With `whole`, function
   records that are missing are added at the end. Gives the number of bytes written. */
size_t repair(const uint8_t *bytes, size_t length, unsigned labels, int whole, uint8_t *file);

/* The length of the record that repair makes where this byte stands for the kind. */
size_t record_length(uint8_t kind);

#endif
