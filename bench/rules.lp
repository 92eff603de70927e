% The rules of document 01 as a logic program, over facts that src/clingo.rs writes for a file.
% s(V,X): variable V may hold X. h(L,N,X): property N of L. p(L,X): chain of L. t(K,X): thrown in scope K.
#show s/2. #show h/3. #show p/2. #show t/2.

% label(L,type), builtin(L), named(V,N), key(K,N): N is a name of the key byte K; formal(F,J,V), 0 for this.
p(L,L) :- label(L,_).
p(L,1) :- label(L,1).
p(L,2) :- label(L,2).
p(L,4) :- label(L,3).
p((0;2;3;4),1). p(3,(2;4)).
p(L,X) :- p(L,M), p(M,X).
s(V,X) :- named(V,N), h(0,N,X).
h(0,N,X) :- named(V,N), s(V,X).

% 6, 7, 8
s(1,X) :- grant(V), s(V,X).
s(V,X) :- grant(V), s(1,X).
h(L,N,X) :- property(L,N,X).
s(V,L) :- held(V,L).

% 16 copy(Y,V); 17 load(Y,V,K,W); 18 store(V,K,A); 20 make function also gives a property
s(Y,X) :- copy(Y,V), s(V,X), Y > 0.
chain(V,M) :- s(V,L), p(L,M).
s(V,W) :- load(_,V,_,W), V > 0.
reads(Y,M,N) :- load(Y,V,K,_), Y > 0, chain(V,M), key(K,N).
reads(Y,M,N) :- load(Y,_,K,W), Y > 0, p(W,M), key(K,N).
s(Y,X) :- reads(Y,M,N), h(M,N,X).
writes(L,N,A) :- store(V,K,A), s(V,L), not builtin(L), key(K,N).
h(L,N,X) :- writes(L,N,A), s(A,X).

% 21 call(I,K,Y,V) with argument(I,J,A); 22 new(V,L) beside the same; 23 return(K,V)
calls(I,F) :- call(I,_,_,V), s(V,F), label(F,2).
copy(P,A) :- calls(I,F), formal(F,J,P), argument(I,J,A).
returned(F,X) :- return(F,V), s(V,X).
handed(Y,F) :- calls(I,F), call(I,_,Y,_), Y > 0.
s(Y,X) :- handed(Y,F), returned(F,X).
passed(K,F) :- calls(I,F), call(I,K,_,_).
t(K,X) :- passed(K,F), t(F,X).
made(L,M) :- new(V,L), chain(V,M).
p(L,X) :- made(L,M), h(M,3,X).

% 24 throw(K,V); 25 catch(K,Y); 26 prim(K,V)
t(K,X) :- throw(K,V), s(V,X).
s(Y,X) :- catch(K,Y), t(K,X), Y > 0.
method(V,F) :- prim(_,V), chain(V,M), h(M,(1;2),F), label(F,2).
copy(P,V) :- method(V,F), formal(F,0,P).
passed(K,F) :- prim(K,V), method(V,F).
