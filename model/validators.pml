/* Four validators of power 1 at one height, three of them correct: the rules of crates/protocol/specs/Rules.antt and the restart of
   Restart.antt, under the same names, each one atomic step. README.md says what is left out, and why nothing is lost by it.

   The values are A and B, a vote's content one of them or NIL, the rounds 0 to ROUNDS - 1; validator r mod 4 proposes in round r. Any
   rule that holds may fire, and a timeout may come at any moment at which its rule holds. What is sent may come late, or never.

   The form of a search:
   BYZANTINE=p        who is Byzantine, validator 3 where nothing is said
   ARRIVALS           each validator keeps what has come to it; without it all that was sent is kept by everyone
   BYZANTINE_ARRIVES  votes of the Byzantine validator come one by one too; without it each is kept by everyone, of every content
   ANY_PROPOSAL       each value is proposed in each round, with each valid round; without it a correct proposer proposes once a round
   BY_ROUNDS          all of a round is before anything of the next one
   QUORUMS_ONLY       of a round that is over only its quorums are known (with BY_ROUNDS)
   NO_NIL             votes for nil are not kept
   DECISIONS          Decide and DecideByBundle are steps; without it two quorums of precommits are looked for
   AWAITING           AwaitPrevotes and AwaitPrecommits are steps, and they and Lock fire once a round
   STOPS_WITHIN       a stop may come within a firing, when its record is saved and its message not sent; own messages are sent again
   NO_RESTARTS, FEWER_RULES (without SkipRound and the timeouts of proposals and prevotes): only to find something sooner
   ANY_FIRST_VALUE    B may be named before A is

   What is looked for:
   AGREEMENT          two values are decidable, or decided: AgreeLaw at one height
   ONE_VOTE           a validator votes twice in one step of a round: OneVoteLaw
   NO_LATER_QUORUM    a quorum prevotes a value in a round in which, or after which, a quorum precommitted another one: NoLaterQuorumLaw
   MATRICES           counts the matrices of sent votes */
#ifdef MATRICES
c_decl { \#include "matrices.h" }
#endif
#ifndef BYZANTINE
#define BYZANTINE 3
#endif

#define VALIDATORS 4
#define PROPOSER(r) ((r) % VALIDATORS)
#if ROUNDS == 1
#define EACH_ROUND(X) X(0)
#elif ROUNDS == 2
#define EACH_ROUND(X) X(0) X(1)
#elif ROUNDS == 3
#define EACH_ROUND(X) X(0) X(1) X(2)
#elif ROUNDS == 4
#define EACH_ROUND(X) X(0) X(1) X(2) X(3)
#endif

/* values, contents, steps */
#define A 0
#define B 1
#define NIL 2
#define NONE 3
#define PROPOSE 0
#define PREVOTE 1
#define PRECOMMIT 2
#define LETTER(content) ((content) == NIL -> 45 : 65 + (content))

/* sets of validators, as bits of a byte */
#define IN(q) (1 << (q))
#define SIZE(set) (((set) & 1) + (((set) >> 1) & 1) + (((set) >> 2) & 1) + (((set) >> 3) & 1))

/* ---- what is kept */

/* the place of votes of a round, a step and a content */
#define PLACES (ROUNDS * 6)
#define PLACE(r, step, content) ((r) * 6 + ((step) - 1) * 3 + (content))

byte sent[PLACES];              /* who has sent this vote */
#ifdef STOPS_WITHIN
byte saved[PLACES];             /* who has it in its journal */
#define HAS_SAVED(q, place) (saved[place] & IN(q))
#define SENT_OR_SAVED(q, place) (sent[place] | HAS_SAVED(q, place))
#else
#define HAS_SAVED(q, place) (sent[place] & IN(q))
#define SENT_OR_SAVED(q, place) (sent[place])
#endif

#ifdef BYZANTINE_ARRIVES
#define BYZANTINE_VOTES 0
#else
#define BYZANTINE_VOTES IN(BYZANTINE)
#endif

#ifdef ARRIVALS
byte came[VALIDATORS * PLACES]; /* whose vote validator q keeps, at q * PLACES + place */
#define VOTES(q, r, step, content) (came[(q) * PLACES + PLACE(r, step, content)] | BYZANTINE_VOTES)
#else
#define VOTES(q, r, step, content) (SENT_OR_SAVED(q, PLACE(r, step, content)) | BYZANTINE_VOTES)
#endif

#define PREVOTED(r, value) (sent[PLACE(r, PREVOTE, value)] | IN(BYZANTINE))
#define PRECOMMITTED(r, value) (sent[PLACE(r, PRECOMMIT, value)] | IN(BYZANTINE))

#include "wrong_rules.h"

#define QUORUM_FOR(q, r, step, content) IS_QUORUM(POWER_FOR(q, r, step, content))
#define QUORUM_ANY(q, r, step) IS_QUORUM(SIZE(VOTES(q, r, step, A) | VOTES(q, r, step, B) | VOTES(q, r, step, NIL)))

/* the variables of each validator; rounds of locks and valid values are a round and 1, or 0 for none */
bit begun[VALIDATORS];
byte round[VALIDATORS];
byte step[VALIDATORS];
byte lock_value[VALIDATORS];
byte lock_round[VALIDATORS];
/* what its journal says: the place of its last own message, and its last precommit for a value */
bit saved_begun[VALIDATORS];
byte saved_round[VALIDATORS];
byte saved_step[VALIDATORS];
byte saved_lock_value[VALIDATORS];
byte saved_lock_round[VALIDATORS];
#ifndef ANY_PROPOSAL
byte valid_value[VALIDATORS];
byte valid_round[VALIDATORS];
/* the proposal of a round whose proposer is correct: PROPOSAL, or 0 */
byte proposed[ROUNDS];
#ifdef ARRIVALS
byte proposals_came[VALIDATORS];
#endif
#endif
#ifdef AWAITING
bit prevotes_awaited[VALIDATORS];
bit value_found[VALIDATORS];
bit precommits_awaited[VALIDATORS];
#endif
#ifdef DECISIONS
byte decided[VALIDATORS];       /* a value and 1, or 0 */
#define IS_UNDECIDED(q) (decided[q] == 0)
#define IS_DECIDED(value) (decided[0] == (value) + 1 || decided[1] == (value) + 1 || decided[2] == (value) + 1 || decided[3] == (value) + 1)
#else
#define IS_UNDECIDED(q) (true)
#endif

/* A is the value that is named first */
bit a_is_named;
#ifdef ANY_FIRST_VALUE
#define MAY_BE_NAMED(value) (true)
#else
#define MAY_BE_NAMED(value) (a_is_named || (value) == A)
#endif

bit votes_twice;
#ifdef BY_ROUNDS
byte open_round;
#define IS_OPEN(r) ((r) == open_round)
#define LAST_ROUND open_round
#else
#define IS_OPEN(r) (true)
#define LAST_ROUND (ROUNDS - 1)
#endif

/* ---- proposals; valid is a valid round and 1, or 0 for none */

#ifdef ANY_PROPOSAL
#define IS_PROPOSED_FROM(q, r, value, valid) (true)
#define IS_PROPOSED(q, r, value) (true)
#define OR_PROPOSER(q, r)
#else
#ifdef ARRIVALS
#define PROPOSAL_CAME(q, r) (proposals_came[q] & IN(r))
#else
#define PROPOSAL_CAME(q, r) (true)
#endif
#define PROPOSAL(value, valid) (1 + (value) + 2 * (valid))
#define IS_PROPOSED_FROM(q, r, value, valid) \
    (PROPOSER(r) == BYZANTINE || (proposed[r] == PROPOSAL(value, valid) && PROPOSAL_CAME(q, r)))
#define IS_PROPOSED(q, r, value) \
    (PROPOSER(r) == BYZANTINE || (proposed[r] && ((proposed[r] - 1) & 1) == (value) && PROPOSAL_CAME(q, r)))
#define OR_PROPOSER(q, r) | ((proposed[r] && PROPOSAL_CAME(q, r)) -> IN(PROPOSER(r)) : 0)
#endif

/* who sent anything of a round, as validator q keeps it */
#ifdef ARRIVALS
#define CAME(q, r, step, content) came[(q) * PLACES + PLACE(r, step, content)]
#define BYZANTINE_SPEAKS BYZANTINE_VOTES
#else
#define CAME(q, r, step, content) sent[PLACE(r, step, content)]
#define BYZANTINE_SPEAKS IN(BYZANTINE)
#endif
#define SPEAKERS(q, r) (CAME(q, r, PREVOTE, A) | CAME(q, r, PREVOTE, B) | CAME(q, r, PREVOTE, NIL) \
    | CAME(q, r, PRECOMMIT, A) | CAME(q, r, PRECOMMIT, B) | CAME(q, r, PRECOMMIT, NIL) | BYZANTINE_SPEAKS OR_PROPOSER(q, r))

/* ---- what is looked for */

#define IS_LATER_QUORUM(r, later) \
    ((IS_QUORUM(SIZE(PRECOMMITTED(r, A))) && IS_QUORUM(SIZE(PREVOTED(later, B)))) \
    || (IS_QUORUM(SIZE(PRECOMMITTED(r, B))) && IS_QUORUM(SIZE(PREVOTED(later, A)))))
#define AFTER_0(later) || IS_LATER_QUORUM(0, later)
#define AFTER_1(later) || ((later) >= 1 && IS_LATER_QUORUM(1, later))
#define AFTER_2(later) || ((later) >= 2 && IS_LATER_QUORUM(2, later))
#define AFTER_3(later) || ((later) >= 3 && IS_LATER_QUORUM(3, later))
#if ROUNDS == 1
#define HAS_LATER_QUORUM (false EACH_ROUND(AFTER_0))
#elif ROUNDS == 2
#define HAS_LATER_QUORUM (false EACH_ROUND(AFTER_0) EACH_ROUND(AFTER_1))
#elif ROUNDS == 3
#define HAS_LATER_QUORUM (false EACH_ROUND(AFTER_0) EACH_ROUND(AFTER_1) EACH_ROUND(AFTER_2))
#elif ROUNDS == 4
#define HAS_LATER_QUORUM (false EACH_ROUND(AFTER_0) EACH_ROUND(AFTER_1) EACH_ROUND(AFTER_2) EACH_ROUND(AFTER_3))
#endif

inline looks_for_two_values() {
#ifdef AGREEMENT
    if
    :: A_IS_DECIDABLE && B_IS_DECIDABLE -> printf("both values are decidable\n"); assert(false)
    :: else
    fi
#else
    skip
#endif
}

inline looks_for_later_quorum() {
#ifdef NO_LATER_QUORUM
    if
    :: HAS_LATER_QUORUM -> printf("a later quorum prevotes another value\n"); assert(false)
    :: else
    fi
#else
    skip
#endif
}

/* ---- parts of rules */

/* the validator is opened over its journal */
inline restarts(p) {
    begun[p] = REOPENED_BEGUN;
    if
    :: begun[p] -> round[p] = saved_round[p]; step[p] = REOPENED_STEP
    :: else -> round[p] = 0; step[p] = PROPOSE
    fi;
    lock_value[p] = REOPENED_LOCK_VALUE;
    lock_round[p] = REOPENED_LOCK_ROUND;
#ifndef ANY_PROPOSAL
    valid_value[p] = NONE;
    valid_round[p] = 0;
#endif
    nothing_is_awaited(p);
    keeps_own_messages(p)
}

inline nothing_is_awaited(p) {
#ifdef AWAITING
    prevotes_awaited[p] = 0;
    value_found[p] = 0;
    precommits_awaited[p] = 0
#else
    skip
#endif
}

inline keeps_own_messages(p) {
#ifdef ARRIVALS
    i = 0;
    do
    :: i < PLACES -> came[p * PLACES + i] = HAS_SAVED(p, i); i++
    :: else -> break
    od;
    i = 0;
#ifndef ANY_PROPOSAL
    do
    :: i < ROUNDS && PROPOSER(i) != p -> proposals_came[p] = proposals_came[p] & (255 - IN(i)); i++
    :: i < ROUNDS && PROPOSER(i) == p -> i++
    :: else -> break
    od;
    i = 0
#endif
#else
    skip
#endif
}

/* its journal gets a message of this step and the present round */
inline saves_place(p, of_step) {
    saved_begun[p] = 1;
    saved_round[p] = round[p];
    saved_step[p] = of_step
}

inline sends(p, of_step, content) {
    sent[PLACE(round[p], of_step, content)] = sent[PLACE(round[p], of_step, content)] | IN(p)
}

#define HAS_VOTED(p, of_step) ((SENT_OR_SAVED(p, PLACE(round[p], of_step, A)) | SENT_OR_SAVED(p, PLACE(round[p], of_step, B)) \
    | SENT_OR_SAVED(p, PLACE(round[p], of_step, NIL))) & IN(p))

inline looks_for_second_vote(p, of_step) {
    if
    :: HAS_VOTED(p, of_step) -> votes_twice = 1
    :: else
    fi;
#ifdef ONE_VOTE
    if
    :: votes_twice -> printf("votes twice\n"); assert(false)
    :: else
    fi
#else
    votes_twice = 0
#endif
}

/* its record is saved, the step moves on, and the vote is sent */
inline saves_and_sends(p, of_step, content) {
    saves_place(p, of_step);
    if
    :: of_step == PRECOMMIT && content < NIL -> saved_lock_value[p] = content; saved_lock_round[p] = round[p] + 1
    :: else
    fi;
    step[p] = of_step;
#if defined STOPS_WITHIN
    saved[PLACE(round[p], of_step, content)] = saved[PLACE(round[p], of_step, content)] | IN(p);
    if
    :: sends(p, of_step, content)
    :: printf("v%d stops before this is sent, and is opened again\n", p); restarts(p)
    fi
#elif defined NO_NIL
    if
    :: content == NIL
    :: else -> sends(p, of_step, content)
    fi
#else
    sends(p, of_step, content)
#endif
}

/* the own vote of this step in the present round */
inline votes(p, of_step, content) {
    printf("%c in round %d\n", LETTER(content), round[p]);
    looks_for_second_vote(p, of_step);
    if
    :: content == A -> a_is_named = 1
    :: else
    fi;
#ifdef WRONG_SENT_BEFORE_SAVED
    if
    :: sends(p, of_step, content); printf("v%d stops before this is saved, and is opened again\n", p); restarts(p)
    :: saves_and_sends(p, of_step, content)
    fi;
#else
    saves_and_sends(p, of_step, content);
#endif
#ifdef ARRIVALS
    came[p * PLACES + PLACE(round[p], of_step, content)] =
        came[p * PLACES + PLACE(round[p], of_step, content)] | HAS_SAVED(p, PLACE(round[p], of_step, content));
#endif
#ifdef MATRICES
    c_code { note_matrix(now.sent, sizeof(now.sent)); };
#endif
    looks_for_two_values();
    looks_for_later_quorum()
}

/* the round begins, and its proposer proposes: its valid value, or else any */
inline begins(p, r) {
    begun[p] = 1;
    round[p] = r;
    step[p] = PROPOSE;
    nothing_is_awaited(p);
#ifndef ANY_PROPOSAL
    if
    :: PROPOSER(round[p]) == p && valid_value[p] != NONE -> proposes(p, valid_value[p], valid_round[p])
    :: PROPOSER(round[p]) == p && valid_value[p] == NONE -> proposes(p, A, 0); a_is_named = 1
    :: PROPOSER(round[p]) == p && valid_value[p] == NONE && MAY_BE_NAMED(B) -> proposes(p, B, 0)
    :: PROPOSER(round[p]) != p
    fi
#else
    skip
#endif
}

inline proposes(p, value, valid) {
    proposed[round[p]] = PROPOSAL(value, valid);
    saves_place(p, PROPOSE);
#ifdef ARRIVALS
    proposals_came[p] = proposals_came[p] | IN(round[p]);
#endif
    printf("v%d proposes %c in round %d, valid round %d\n", p, LETTER(value), round[p], (valid) - 1)
}

/* The value is found valid. Where there are proposers, a validator that precommitted already notes it too. */
#ifdef AWAITING
#define MAY_FIND (!value_found[p])
#define NOTES_FOUND value_found[p] = 1
#else
#define MAY_FIND (true)
#define NOTES_FOUND skip
#endif
#ifdef ANY_PROPOSAL
#define FINDS(value) NOTES_FOUND
#else
#define FINDS(value) valid_value[p] = value; valid_round[p] = round[p] + 1; NOTES_FOUND
#define IS_NEWLY_FOUND(value) (valid_value[p] != (value) || valid_round[p] != round[p] + 1)
#endif

/* ---- the rules */

#define IS_AT(of_step) (IS_UNDECIDED(p) && begun[p] && step[p] == (of_step) && IS_OPEN(round[p]))
#define PREVOTES(content) printf("prevotes "); votes(p, PREVOTE, content)
#define PRECOMMITS(content) printf("precommits "); votes(p, PRECOMMIT, content)

#define PREVOTE_FRESH(value) :: atomic { \
    IS_AT(PROPOSE) && IS_PROPOSED_FROM(p, round[p], value, 0) && MAY_BE_NAMED(value) -> \
    printf("v%d PrevoteFresh %c: ", p, LETTER(value)); \
    if \
    :: FRESH_IS_ALLOWED(value) -> PREVOTES(value) \
    :: !FRESH_IS_ALLOWED(value) -> other = CONTENT_OF_LOCKED; PREVOTES(other); other = 0 \
    fi }

#define PREVOTE_AGAIN_OF(valid, value) :: atomic { \
    IS_AT(PROPOSE) && IS_EARLIER(valid) && IS_PROPOSED_FROM(p, round[p], value, (valid) + 1) && IS_BACKED(valid, value) -> \
    printf("v%d PrevoteAgain %d %c: ", p, valid, LETTER(value)); \
    if \
    :: AGAIN_IS_ALLOWED(valid, value) -> PREVOTES(value) \
    :: !AGAIN_IS_ALLOWED(valid, value) -> PREVOTES(NIL) \
    fi }
#define PREVOTE_AGAIN(valid) PREVOTE_AGAIN_OF(valid, A) PREVOTE_AGAIN_OF(valid, B)

#define LOCK(value) :: atomic { \
    IS_AT(PREVOTE) && MAY_FIND && IS_PROPOSED(p, round[p], value) && IS_LOCKABLE(value) -> \
    printf("v%d Lock %c: ", p, LETTER(value)); LOCKS(value); FINDS(value); PRECOMMITS(value) }
#define FIND(value) :: atomic { \
    IS_AT(PRECOMMIT) && MAY_FIND && IS_NEWLY_FOUND(value) && IS_PROPOSED(p, round[p], value) && IS_LOCKABLE(value) -> \
    printf("v%d Lock %c: only its valid value\n", p, LETTER(value)); FINDS(value) }

#define DECIDE_OF(r, value) :: atomic { \
    IS_UNDECIDED(p) && IS_PROPOSED(p, r, value) && QUORUM_FOR(p, r, PRECOMMIT, value) -> \
    printf("v%d Decide %d %c\n", p, r, LETTER(value)); decides(p, value) }
#define DECIDE(r) DECIDE_OF(r, A) DECIDE_OF(r, B)
#define DECIDE_BY_BUNDLE_OF(r, value) :: atomic { \
    IS_UNDECIDED(p) && IS_QUORUM(SIZE(PRECOMMITTED(r, value))) -> \
    printf("v%d DecideByBundle %d %c\n", p, r, LETTER(value)); decides(p, value) }
#define DECIDE_BY_BUNDLE(r) DECIDE_BY_BUNDLE_OF(r, A) DECIDE_BY_BUNDLE_OF(r, B)

inline decides(p, value) {
    decided[p] = (value) + 1;
    assert(!(IS_DECIDED(A) && IS_DECIDED(B)))
}

#define SKIP_ROUND(r) :: atomic { \
    IS_UNDECIDED(p) && begun[p] && (r) > round[p] && (r) <= LAST_ROUND && IS_WEAK(SIZE(SPEAKERS(p, r))) -> \
    printf("v%d SkipRound %d\n", p, r); begins(p, r) }

/* another vote comes: it is chosen by its place, and a sender of it */
#define TAKE(q) :: (sent[i] & IN(q)) && !(came[p * PLACES + i] & IN(q)) -> came[p * PLACES + i] = came[p * PLACES + i] | IN(q)

proctype validator(byte p) {
    byte other;
    byte i;
end: do
    :: atomic { IS_UNDECIDED(p) && !begun[p] -> printf("v%d Start\n", p); begins(p, 0) }
    PREVOTE_FRESH(A) PREVOTE_FRESH(B)
    EACH_ROUND(PREVOTE_AGAIN)
    LOCK(A) LOCK(B)
#ifndef ANY_PROPOSAL
    FIND(A) FIND(B)
#endif
    :: atomic { IS_AT(PREVOTE) && QUORUM_FOR(p, round[p], PREVOTE, NIL) -> printf("v%d PrecommitNil: ", p); UNLOCKS; PRECOMMITS(NIL) }
#ifdef AWAITING
    :: atomic { IS_AT(PREVOTE) && QUORUM_ANY(p, round[p], PREVOTE) && !prevotes_awaited[p] ->
        printf("v%d AwaitPrevotes\n", p); prevotes_awaited[p] = 1 }
    :: atomic { IS_UNDECIDED(p) && begun[p] && QUORUM_ANY(p, round[p], PRECOMMIT) && !precommits_awaited[p] ->
        printf("v%d AwaitPrecommits\n", p); precommits_awaited[p] = 1 }
#endif
#ifdef DECISIONS
    EACH_ROUND(DECIDE)
    EACH_ROUND(DECIDE_BY_BUNDLE)
#endif
#ifndef FEWER_RULES
    EACH_ROUND(SKIP_ROUND)
    /* (also PrevoteFresh of a value that isn't genuine) */
    :: atomic { IS_AT(PROPOSE) -> printf("v%d TimedOut propose: ", p); PREVOTES(NIL) }
    :: atomic { IS_AT(PREVOTE) -> printf("v%d TimedOut prevote: ", p); PRECOMMITS(NIL) }
#endif
    :: atomic { IS_UNDECIDED(p) && begun[p] && round[p] < LAST_ROUND -> printf("v%d TimedOut precommit\n", p); begins(p, round[p] + 1) }
#ifndef NO_RESTARTS
    :: atomic { IS_UNDECIDED(p) && begun[p] -> printf("v%d stops, and is opened again\n", p); restarts(p) }
#endif
#ifdef STOPS_WITHIN
    :: atomic { true -> printf("v%d sends its messages again\n", p);
        do
        :: i < PLACES -> sent[i] = sent[i] | HAS_SAVED(p, i); i++
        :: else -> i = 0; break
        od;
        looks_for_two_values() }
#endif
#ifdef ARRIVALS
    :: atomic { IS_UNDECIDED(p) ->
        do
        :: i < PLACES - 1 -> i++
        :: break
        od;
        if
        TAKE(0) TAKE(1) TAKE(2) TAKE(3)
#ifdef BYZANTINE_ARRIVES
        :: !(came[p * PLACES + i] & IN(BYZANTINE)) -> came[p * PLACES + i] = came[p * PLACES + i] | IN(BYZANTINE)
#endif
        :: else
        fi;
        i = 0 }
#ifndef ANY_PROPOSAL
    :: atomic { IS_UNDECIDED(p) ->
        do
        :: i < ROUNDS - 1 -> i++
        :: break
        od;
        if
        :: proposed[i] -> proposals_came[p] = proposals_came[p] | IN(i)
        :: else
        fi;
        i = 0 }
#endif
#endif
    od
}

#ifdef BY_ROUNDS
/* the open round ends, and the next one opens */
proctype rounds() {
    byte i;
end: do
    :: atomic { open_round < ROUNDS - 1 ->
#ifdef QUORUMS_ONLY
        i = 0;
        do
        :: i < 6 -> sent[open_round * 6 + i] = (IS_QUORUM(SIZE(sent[open_round * 6 + i] | IN(BYZANTINE))) -> 15 : 0); i++
        :: else -> break
        od;
        i = 0;
#endif
        open_round++ }
    od
}
#endif

init {
    byte i;
    atomic {
        do
        :: i < VALIDATORS -> lock_value[i] = NONE; saved_lock_value[i] = NONE;
#ifndef ANY_PROPOSAL
            valid_value[i] = NONE;
#endif
            i++
        :: else -> break
        od;
        i = 0;
        do
        :: i < VALIDATORS && i != BYZANTINE -> run validator(i); i++
        :: i < VALIDATORS && i == BYZANTINE -> i++
        :: else -> break
        od;
        i = 0;
#ifdef BY_ROUNDS
        run rounds()
#endif
    }
}
