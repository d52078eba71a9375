% Compares the first events of goals with their answers here: answers.pl -- PROGRAM CASES, where each case has a goal and an event.
:- set_prolog_flag(double_quotes, chars).
:- set_prolog_flag(occurs_check, true).
:- use_module(library(lists)).
:- use_module(library(apply)).
:- use_module(library(solution_sequences)).
:- dynamic case/2, told/1.
:- use_module(library(aggregate)).
:- initialization(main).

main :-
    current_prolog_flag(argv, Words),
    append(_, [Program, Cases], Words),
    load_files(user:Program, [silent(true)]),
    load_files(user:Cases, [silent(true)]),
    forall(case(Goal, Event), compared(Goal, Event)),
    forall(aggregate(count, told(Kind), Count), format("~w: ~w~n", [Kind, Count])),
    halt.

compared(Goal, Event) :-
    (   catch(term_to_atom(Seen, Event), _, fail),
        judged(Seen)
    ->  term_to_atom(G-T, Goal),
        answers(G, T, Answers),
        kind(Seen, Answers, Kind),
        shown(Kind, Goal, Event, Answers)
    ;   Kind = left_out
    ),
    assertz(told(Kind)).

judged(failure).
judged(success(_, _)).
judged(error(_)).

shown(other, Goal, Event, Answers) :-
    !,
    format("goal  ~w~nevent ~w~nswipl ~q~n", [Goal, Event, Answers]).
shown(_, _, _, _).

% The first 20 answers, and how they end: done, error(Ball), or limit where it takes too long.
answers(G, T, Answers-End) :-
    nb_setval(answers, []),
    catch(call_with_inference_limit(gathered(G, T), 2000000, Result), Ball, true),
    nb_getval(answers, Last),
    reverse(Last, Answers),
    (   nonvar(Ball) -> End = error(Ball)
    ;   Result == inference_limit_exceeded -> End = limit
    ;   End = done
    ).

gathered(G, T) :-
    forall(limit(20, G), (nb_getval(answers, Before), duplicate_term(T, Copy), nb_setval(answers, [Copy|Before]))).

% How the two compare; of an error that is thrown on one side alone, its formal term.
kind(error(_), _-error(_), same) :- !.
kind(error(Ball), _, error_here(Name)) :- formal(Ball, Name), !.
kind(failure, []-done, same) :- !.
kind(success(Seen, _), Answers-End, same) :-
    same_answers(Seen, Answers),
    ( length(Seen, 20) ; End = error(_) ; End == done ),
    !.
kind(success(Seen, true), Answers-done, later_error_here) :-
    append(First, _, Answers),
    same_answers(Seen, First),
    !.
kind(_, _-error(Ball), error_there(Name)) :- formal(Ball, Name), !.
kind(_, _, other).

formal(error(Formal, _), Name) :- Formal =.. [_, Type|_], atom(Type), !, Name = Type.
formal(error(Formal, _), Formal) :- !.
formal(_, ball).

same_answers([], []).
same_answers([A|As], [B|Bs]) :-
    without_context(A, C),
    without_context(B, D),
    C =@= D,
    same_answers(As, Bs).

% The term with a fixed context in each error term.
without_context(A, B) :-
    (   compound(A)
    ->  A =.. [Name|As],
        maplist(without_context, As, Bs),
        (   Name == error, Bs = [Formal, _] -> B = error(Formal, context) ; B =.. [Name|Bs] )
    ;   B = A
    ).
