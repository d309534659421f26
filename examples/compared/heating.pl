% The heating allowance of ../heating_2026.txt as a Prolog program. Amounts are in cents.
base(1, 6000).
base(2, 9000).
base(People, 12000) :- People > 2.
supplement(true, 1500).
supplement(false, 0).
exempt(People, Exempt) :- Exempt is 120000 + 40000 * (People - 1).
reduction(People, Income, Reduction) :-
    exempt(People, Exempt),
    Reduction is (2 * max(0, Income - Exempt) + 5) // 10.
amount(People, Income, Pensioner, Amount) :-
    base(People, Base),
    supplement(Pensioner, Supplement),
    reduction(People, Income, Reduction),
    Amount is max(0, Base + Supplement - Reduction).
allowance(People, Income, Pensioner, Allowance) :-
    amount(People, Income, Pensioner, Amount),
    ( Amount >= 500 -> Allowance = Amount ; Allowance = 0 ).

% From here on: reading cases, and writing results.
decide_all(File) :-
    setup_call_cleanup(open(File, read, Stream), decided(Stream), close(Stream)).
decided(Stream) :-
    read_term(Stream, Case, []),
    ( Case == end_of_file -> true
    ; Case = household(People, Income, Pensioner),
      once(allowance(People, Income, Pensioner, Allowance)),
      write(Allowance), nl,
      decided(Stream) ).
