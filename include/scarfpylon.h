/*
 * Scarfpylon: learns temporal patterns from recorded sessions.
 *
 * Link with crates/scarfpylon/out/libscarfpylon.a, which `rt lib` in crates/scarfpylon writes (x86-64 Linux). The library keeps nothing between calls, takes
 * no memory but the stack (scarfpylon_parse up to 1.5 MB of it, for a text of 4,096 brackets), and of the C library needs only memcpy and memset. Every
 * function is defined for every input: what it returns and what it writes are proved (crates/scarfpylon and crates/out_*). examples/c/s1.c is a whole program.
 *
 * WHAT IT WORKS ON
 *
 * A session is a recording of 0 to 64 snapshots. For each proposition (a fact that a snapshot shows or doesn't) it has one 64-bit word: bit i is set
 * where the proposition holds at snapshot i, and no bit at or above the session's length is set. A session is marked 1 (good) or 0 (bad).
 *
 * A formula says something of a session's snapshots. Its operators have codes:
 *
 *     unary    0 `!` not            1 `X` at the next snapshot, if there is one       2 `X[!]` there is a next snapshot, and at it
 *              3 `F` at some snapshot from here on                                    4 `G` at every snapshot from here on
 *     binary   5 `|` or             6 `&` and            9 `->` implies              10 `<->` equivalent
 *              7 `U` f U g: g at some snapshot from here on, and f at every one before that
 *              8 `R` f R g: g at every snapshot from here on up to the first with f, that one included; without such a one, to the end
 *     leaves  16 a proposition     17 false             18 true
 *
 * A session accepts a formula if the formula holds at its first snapshot. A session without snapshots accepts true, `X`, `G` and `R`, whatever is under
 * them, and no proposition, false, `X[!]`, `F` or `U`; the other operators follow what is under them. A formula separates the sessions if every good one
 * accepts it and no bad one does.
 *
 * A formula is handed over as a list of nodes and one root node over it. The list is four slices of one length: at each place a code, a left and a right
 * place, and a size. Where the slices differ in length, their count is the shortest one's. A child's place is below its node's own; the root stands
 * outside the list, and its children may be at any place of it. A proposition has its number (from 0) as its left place, and a field that is not used
 * is 0: the right place but for binary operators, the left place of false and true. A leaf's size is 1, an operator's 1 plus its children's; no size
 * is above 31. A list has at most 4,096 nodes.
 *
 * WHAT EVERY FUNCTION DOES
 *
 * A slice is a pointer and the number of its elements. The pointer is aligned for its type and not NULL, even where the number is 0. A slice that
 * is written overlaps no other slice of the call.
 *
 * Every function returns 0 where it answered. Else it returns the number of a refusal, and has written nothing. The function names the refusals that it
 * gives, in the order in which it tests for them: the first that applies is given, and it is given in no other case.
 *
 *      1   the number of sessions is not 1 to 32, or that of propositions not 1 to 16
 *      2   the bound is not 1 to 31, the room not 1 to 4,096, the constants mark not 0 or 1, or a budget above 1,000,000
 *      3   a slice is shorter than the function asks. Where it asks for a length, a longer slice is good, and what is beyond is not looked at
 *      4   a length above 64
 *      5   a bit set at or above the length; the operators take bit 0 at length 0, where it says whether an empty session accepts
 *      6   a mark other than 0 or 1
 *      7   a code that is not of its group, or stands twice in its list
 *      8   a session file or a names section is broken; 256 times the offset of the first offending byte is added
 *      9   a node list or its root is not as said above, or a proposition's number not as the function asks
 *     10   two sequences of unequal length
 *     11   a text is no formula; 256 times the offset of the first byte that can't continue one is added, the text's length if it ends early
 *     12   a text of more than 4,096 bytes, or a formula of a size above 31 or with more than 64 brackets open at once
 *     13   a name that is not among the names; 256 times its offset is added
 *     14   the state of a search in slices has a number out of range (scarfpylon_resume says which)
 *
 * So `result & 255` is the number, and for numbers 8, 11 and 13 `result >> 8` is the offset.
 *
 * Answers are written to the last slice, `out`, which has at least 8 words, at the search and scarfpylon_resume 16; a shorter one is refused with 3. A function names the
 * words that it writes; the others stay as they were.
 */
#ifndef SCARFPYLON_H
#define SCARFPYLON_H

#include <stddef.h>
#include <stdint.h>

#ifdef __cplusplus
extern "C" {
#endif

/*
 * One unary operator on one sequence: a length and a word.
 *
 * Writes out[0]: the word of the result, which has the same length.
 * Refuses with 7, 4, 5, then 3 (`out`).
 */
uint64_t scarfpylon_unary(uint8_t code, uint64_t length, uint64_t word, uint64_t *out, size_t out_count);

/*
 * One binary operator on two sequences of one length.
 *
 * Writes out[0]: the word of the result.
 * Refuses with 7, then 4 and 5 of the left sequence, 4 and 5 of the right one, 10, then 3 (`out`).
 */
uint64_t scarfpylon_binary(uint8_t code, uint64_t left_length, uint64_t left_word, uint64_t right_length, uint64_t right_word,
                           uint64_t *out, size_t out_count);

/*
 * The smallest formula of size up to `bound` that separates the sessions, over the propositions, the constants false and true if `constants` is 1, and the
 * operators of the two lists. Candidates are tried in a fixed order, by size. Of those that hold at the same snapshots of every session, and that the same
 * empty sessions accept, only the first is kept, and at most `room` are kept.
 *
 * Reads marks[sessions], lengths[sessions] and words[propositions * sessions], where the word of proposition p in session i is at i * propositions + p;
 * and the whole of unary and binary, which may be empty.
 * Asks for room: codes, lefts, rights and sizes of `room` elements each, matrices of room * sessions words.
 *
 * Writes the kept formulas in the order in which they were kept: a node in codes, lefts, rights and sizes, and one word per session in matrices
 * (place * sessions + session). What is beyond them stays as it was. And
 *     out[0]  1 found, 2 none, 3 the room is full
 *     out[1]  found: the formula's size; full: the size at which a place was lacking; none: not written
 *     out[2]  how many candidates were tried, with the one that decided
 *     out[3]  how many formulas are kept; a formula that is found is not among them
 *     out[4] to out[7]  found: its root's code, left, right and size, over the kept nodes; else not written
 *     out[8]  how many candidates were dropped, since a kept formula has the same matrix: tried is kept and dropped together, and one more where a
 *             formula was found or the room was full
 * Found: the formula separates, and no smaller one does. None: no formula up to the bound separates. Full: no formula below that size does.
 * Refuses with 1, 2, 3 (what is read, the room, `out`), 4, 5, 6, 7.
 */
uint64_t scarfpylon_search(size_t sessions, size_t propositions, size_t bound, size_t room, uint8_t constants,
                           const uint8_t *marks, size_t marks_count, const uint8_t *lengths, size_t lengths_count,
                           const uint64_t *words, size_t words_count,
                           const uint8_t *unary, size_t unary_count, const uint8_t *binary, size_t binary_count,
                           uint8_t *codes, size_t codes_count, uint16_t *lefts, size_t lefts_count,
                           uint16_t *rights, size_t rights_count, uint8_t *sizes, size_t sizes_count,
                           uint64_t *matrices, size_t matrices_count,
                           uint64_t *out, size_t out_count);

/*
 * The search in slices: a call goes on from the state of the call before, for at most `budget` candidates. A state is 16 words, which the caller keeps
 * between calls, together with the nodes and matrices written so far.
 *
 *     state[0]   the size that is being gone through, 1 to the bound
 *     state[1]   how many formulas are kept        state[2]   how many candidates were tried        state[13]  how many were dropped
 *     state[3], state[4]  where the walk stands: the left and the right place of the pair last tried, or of the size's first, each at most state[1]
 *     state[5]   the position after the operator last tried: at size 1 in the list of leaves (the propositions, then false and true if `constants` is 1), else
 *                in the unary list if state[6] is 0 and in the binary one if not; at most the list's length, and equal to it where that pair is done
 *     state[6]   the size of the left child of a binary candidate, 0 while unary ones are gone through
 *     state[7]   1 where an operator that doesn't commute has been tried in one order and not yet in the other, else 0
 *     state[8]   0 while there is more to try; at the end 1 found, 2 none, 3 the room is full
 *     state[9] to state[12]  found: the root's code, left, right and size; else 0
 *     state[14], state[15]  0
 *
 * A caller reads from it what it shows between two turns: size, tried, kept, dropped.
 */

/*
 * Writes a fresh state, of which nothing is tried, into the first 16 words of `state`.
 *
 * Refuses with 3 (`state` below 16 words).
 */
uint64_t scarfpylon_fresh(uint64_t *state, size_t state_count);

/*
 * Goes on from a state. Everything up to `matrices` is as at the search and has to be the same in each call; the slices of the room come back as the call
 * before left them, and the first 16 words of `state` too.
 *
 * Tries `budget` candidates, 0 to 1,000,000, or fewer if the walk ends before. Writes the kept formulas as the search does, the state after the call into the
 * first 16 words of `state`, and
 *     out[0]  4 more to try; 1, 2, 3 at the end, as at the search
 *     out[1] to out[8]  at the end as at the search; else only out[2], out[3] and out[8]: tried, kept and dropped so far
 * Where the last candidate is tried the same call says how the walk ended. Any cutting into calls ends as the search does, with the same words in `out` and the
 * same slices; a call after the end repeats it, and a budget of 0 changes neither state nor room (it writes `out`).
 * Refuses with 1, 2 (the budget too), 3 (what is read, the room, `state`, `out`), 4, 5, 6, 7, then 14: state[1] above `room` or above state[2], state[0] not 1 to
 * `bound`, state[3] or state[4] above state[1], or state[5] above the length of its list. All input is tested in each call.
 *
 * A state that no call wrote, or a room that was changed: if it is not refused, the counts tried and kept grow by at most `budget` (a count that has reached
 * 2^64 - 1 stays there), only what is lent is read and written, and the state that is left is not refused either; nothing more is promised. No value of the words 6 to 15 is refused. Any number but 0 in state[7] is a 1, one
 * above 3 in state[8] is a 0, of state[9] and state[12] the lowest 8 bits count, of state[10] and state[11] the lowest 16, and state[14] and state[15] are not
 * looked at.
 */
uint64_t scarfpylon_resume(size_t sessions, size_t propositions, size_t bound, size_t room, uint8_t constants,
                           const uint8_t *marks, size_t marks_count, const uint8_t *lengths, size_t lengths_count,
                           const uint64_t *words, size_t words_count,
                           const uint8_t *unary, size_t unary_count, const uint8_t *binary, size_t binary_count,
                           uint8_t *codes, size_t codes_count, uint16_t *lefts, size_t lefts_count,
                           uint16_t *rights, size_t rights_count, uint8_t *sizes, size_t sizes_count,
                           uint64_t *matrices, size_t matrices_count,
                           uint64_t budget, uint64_t *state, size_t state_count,
                           uint64_t *out, size_t out_count);

/*
 * Whether a formula, whoever wrote it, separates the sessions. The sessions are as at the search; the nodes are the whole of the four slices, and
 * code, left, right and size are the root. A proposition's number has to be below `propositions`.
 *
 * Writes out[0]: 1 if it separates. Else out[0]: 0, and out[1]: the number, from 0, of the first session that disagrees.
 * Refuses with 1, 3 (what is read of the sessions, `out`), 4, 5, 6, 9. A node is tested even if the root doesn't lead to it.
 */
uint64_t scarfpylon_check(size_t sessions, size_t propositions,
                          const uint8_t *marks, size_t marks_count, const uint8_t *lengths, size_t lengths_count,
                          const uint64_t *words, size_t words_count,
                          const uint8_t *codes, size_t codes_count, const uint16_t *lefts, size_t lefts_count,
                          const uint16_t *rights, size_t rights_count, const uint8_t *sizes, size_t sizes_count,
                          uint8_t code, uint16_t left, uint16_t right, uint8_t size,
                          uint64_t *out, size_t out_count);

/*
 * The text of a formula: `op (child)`, `(left) op (right)`, propositions by name, `true`, `false`. The names are a names section, as a session file
 * begins with (below), and nothing after it. A proposition's number has to be below the count of names.
 *
 * Writes the text at the start of `text`, with no 0 and no newline after it; what is beyond stays as it was. And out[0]: the text's length in
 * bytes. It is the text's own length that is asked for, and 391 bytes suffice for any formula.
 * Refuses with 8 (the names; the offset is at most 273), 9, then 3 (`text`, `out`).
 */
uint64_t scarfpylon_print(const uint8_t *names, size_t names_count,
                          const uint8_t *codes, size_t codes_count, const uint16_t *lefts, size_t lefts_count,
                          const uint16_t *rights, size_t rights_count, const uint8_t *sizes, size_t sizes_count,
                          uint8_t code, uint16_t left, uint16_t right, uint8_t size,
                          uint8_t *text, size_t text_count,
                          uint64_t *out, size_t out_count);

/*
 * Reads a formula that is typed. The names are a names section, as at scarfpylon_print. Operators as in the table above, names, `true`, `false`, and
 * brackets `(` `)`; any number of spaces before, between and after them, and at least one between two words: `pUq` is a name. `!`, `X`, `X[!]`, `F` and
 * `G` bind tightest; then `U` and `R`, to the right (`p U q U r` is `p U (q U r)`), `&` and then `|`, to the left, and lowest `->` and `<->` together, to
 * the right.
 *
 * Writes the formula's nodes at the start of codes, lefts, rights and sizes: left child, right child, parent, nothing shared, so that the last one is the
 * root; what is beyond stays as it was. And out[0]: how many nodes, at most 31. For scarfpylon_check and scarfpylon_print the list is those before the
 * last, or all of them, and the root is the last.
 * Refuses with 8 (the names), 12 (the text's length), 11, 13, 12 (size or brackets), then 3 (the shortest of the four slices below the number of nodes,
 * `out`). The offset of 11 goes by the grammar alone, whatever the names; those of 11 and 13 are at most 4,096.
 */
uint64_t scarfpylon_parse(const uint8_t *names, size_t names_count, const uint8_t *text, size_t text_count,
                          uint8_t *codes, size_t codes_count, uint16_t *lefts, size_t lefts_count,
                          uint16_t *rights, size_t rights_count, uint8_t *sizes, size_t sizes_count,
                          uint64_t *out, size_t out_count);

/*
 * A report on a formula, whoever wrote it: per session and node under the root, the first snapshot where it holds, the first where it doesn't, and at how
 * many it holds. Sessions, nodes and root are as at the check. A line for each session and place, places rising, each once, and then one for the root:
 *     session place first-holds first-fails count
 * in decimal, one blank between, `-` where there is no such snapshot, `root` for the root, and a newline after each line. Whether the formula separates the
 * sessions is not asked.
 *
 * Writes the report at the start of `text`; what is beyond stays as it was. And out[0]: its length in bytes, with the last newline. It is the report's own
 * length that is asked for, and 15,562 bytes suffice for any.
 * Refuses with 1, 3 (what is read of the sessions), 4, 5, 6, 9, then 3 (`text`, `out`).
 */
uint64_t scarfpylon_report(size_t sessions, size_t propositions,
                           const uint8_t *marks, size_t marks_count, const uint8_t *lengths, size_t lengths_count,
                           const uint64_t *words, size_t words_count,
                           const uint8_t *codes, size_t codes_count, const uint16_t *lefts, size_t lefts_count,
                           const uint16_t *rights, size_t rights_count, const uint8_t *sizes, size_t sizes_count,
                           uint8_t code, uint16_t left, uint16_t right, uint8_t size,
                           uint8_t *text, size_t text_count,
                           uint64_t *out, size_t out_count);

/*
 * Takes a session file apart. A file has five sections, each after a byte with its count, and nothing follows:
 *     1 to 16 names         a byte with the length, 1 to 16, then letters (A-Z, a-z), digits or `_`, a letter first; no name twice,
 *                           and none that is `U`, `R`, `X`, `F`, `G`, `true` or `false`, byte for byte
 *     1 to 32 sessions      a byte with the mark, a byte with the length, then one word of 8 bytes per name, low byte first
 *     unary codes           one byte each, none twice; there may be none
 *     binary codes          in the same way
 *     2 settings            the constants mark, and the bound, 1 to 31
 * All of it has to be good as the search asks for it. The largest good file has 4,450 bytes.
 *
 * Writes, each at the start of its slice, what is beyond staying as it was: marks and lengths, one byte per session; words, one per name and session, as
 * the search reads them; the codes of both lists. And
 *     out[0]  sessions        out[1]  propositions        out[2]  bytes of the names section, which are the file's first
 *     out[3]  unary codes     out[4]  binary codes        out[5]  the constants mark        out[6]  the bound
 * 32 marks, 32 lengths, 512 words, 5 unary and 6 binary codes are room for any file.
 * Refuses with 8, then 3 (a slice or `out`). The offset of number 8 is that of the first offending byte: of a bad word its first byte, of a repeated
 * name or one of those seven its length byte, of a file that goes on the first byte too many, of one that ends early its length. It is at most 4,450.
 */
uint64_t scarfpylon_read(const uint8_t *file, size_t file_count,
                         uint8_t *marks, size_t marks_count, uint8_t *lengths, size_t lengths_count,
                         uint64_t *words, size_t words_count,
                         uint8_t *unary, size_t unary_count, uint8_t *binary, size_t binary_count,
                         uint64_t *out, size_t out_count);

/*
 * Compares a matrix, the first `sessions` of the words, with the one at a place of `matrices`, which has as many words for each place.
 *
 * Writes out[0]: 1 and out[1]: the place, where the two are equal in every word. Else out[0]: 0, and out[1]: the number, from 0, of the first session
 * in which they differ.
 * Refuses with 1 (`sessions`), then 3 (`matrices` with fewer words than the places up to this one have, `words`, `out`).
 */
uint64_t scarfpylon_compare(size_t sessions, size_t place, const uint64_t *matrices, size_t matrices_count, const uint64_t *words, size_t words_count,
                            uint64_t *out, size_t out_count);

#ifdef __cplusplus
}
#endif

#endif
