% The least table of an itinerary, as rules. Facts: record(Number, Kind, Label, Name,
% Parent) for each record that is not gone, with kinds 1 ambient, 2 in, 3 out,
% 4 open, 5 copier; high(Label) for each high label.

#defined record/5.
#defined high/1.

% Containers: the nearest ambient above, or 0.
container(R, 0) :- record(R, _, _, _, 0).
container(R, L) :- record(R, _, _, _, P), record(P, 1, L, _, _).
container(R, C) :- record(R, _, _, _, P), record(P, K, _, _, _), K > 1, container(P, C).

capability(K, T, N) :- record(_, K, T, N, _), K > 1, K < 5.

% What the itinerary and the policy ask for.
i(C, L) :- record(R, K, L, _, _), K < 5, container(R, C).
h(L, N) :- record(_, 1, L, N, _).
s(L) :- high(L).

% In.
i(B, A) :- capability(2, T, N), i(A, T), i(P, A), i(P, B), h(B, N).
s(A) :- capability(2, T, N), i(A, T), i(P, A), i(P, B), h(B, N), s(B).

% Out.
i(P, A) :- capability(3, T, N), i(A, T), i(B, A), i(P, B), h(B, N).
s(A) :- capability(3, T, N), i(A, T), i(B, A), i(P, B), h(B, N), s(B).

% Open.
i(P, K) :- capability(4, T, N), i(P, T), i(P, B), h(B, N), i(B, K).
s(P) :- capability(4, T, N), i(P, T), i(P, B), h(B, N), s(B).

#show i/2.
#show h/2.
#show s/1.
