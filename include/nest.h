/*
 * nest.h - the dotted-board nesting engine.
 *
 * Six services: read a job, save a job, give a row of conflicts, check a layout, run the search for a shortest
 * layout; and, without a job, cut an outline into triangles. Every one takes bytes and numbers only, keeps no
 * state, allocates nothing and always returns. What is unfit is refused by a number; nothing is assumed of the
 * caller but this:
 *
 *   - each pointer names as many bytes as the length beside it says, at any alignment; a buffer of length 0
 *     may have any pointer, null too;
 *   - a buffer that a call may change (answer, row, work) shares no byte with another buffer of that call.
 *
 * Words of this header: a piece TYPE ("kind" in the parameters) is one record of the job's type list, counted
 * from 0. T is the number of types, N the number of pieces (the sum of the demands), W the board's width,
 * L its length, g its step. Columns stand at x = c * g up to L, rows at y = r * g up to W. The MARGIN m,
 * 0 to 63, is how far pieces keep from each edge of the sheet, where clamps hold it. It is no part of the job:
 * the host passes it with row, check and run. With margin 0 there are no clamps and pieces may reach the edges.
 */
#ifndef NEST_H
#define NEST_H

#include <stddef.h>
#include <stdint.h>

#ifdef __cplusplus
extern "C" {
#endif

/* ------------------------------------------------------------------------------------------------------
 * Limits of a job
 * ------------------------------------------------------------------------------------------------------ */

#define NEST_MIN_JOB_BYTES    14 /* the trailer alone */
#define NEST_MAX_JOB_BYTES  1024
#define NEST_MAX_SIDE       1000 /* W, L and g are 1 to 1000 */
#define NEST_MAX_DOTS       1024
#define NEST_MAX_CLASSES       8
#define NEST_MAX_RANK        255
#define NEST_MAX_GAP          63
#define NEST_COMMON_CUT      128 /* added to a gap, it marks the class as common cut */
#define NEST_MAX_TYPES         8
#define NEST_MAX_PIECES       12
#define NEST_MAX_PARTS         6 /* of a type, at least 1 */
#define NEST_MIN_CORNERS       3 /* of a part, and of an outline */
#define NEST_MAX_CORNERS       8
#define NEST_MAX_COORDINATE  127 /* -127 to 127 */

/* ------------------------------------------------------------------------------------------------------
 * The job's bytes
 *
 * Two-byte numbers are unsigned, low byte first. Three sections stand before the trailer, in any order; bytes
 * in no section are skipped; no two sections share a byte. The trailer is the last 14 bytes:
 *
 *   bytes  0 and  1   offset of the board record          bytes  8          number of classes
 *          2 and  3   offset of the class list                   9          number of types
 *          4 and  5   offset of the type list                    10 and 11  length of the whole job
 *          6 and  7   length of the type list in bytes           12 and 13  the mark, 44 42 hexadecimal
 *
 * Board record, 6 bytes:  W (2), L (2), g (2).
 * Class, 3 bytes:         id (0 to 7), rank (0 to 255), gap byte: a gap of 0 to 63, or 128 plus such a gap, which
 *                         marks the class as common cut. No id and no rank occurs twice.
 * Type:                   demand (1 to 12), turn mask (1 to 15; bit k allows k quarter turns), class mask
 *                         (bit i names the class of id i), number of parts (1 to 6), then the parts.
 * Part:                   number of corners (3 to 8), then x and y of each corner as signed bytes, -127 to
 *                         127, anticlockwise; every other corner lies strictly left of each edge.
 *
 * The gap of a type is that of its best-ranked class (smallest rank number), marked or not. A type that names no
 * class takes the largest gap in the job's class list, or 0 if that list is empty. All classes count, also those
 * that no type names, and a marked one with its gap. Pieces that may touch each other, as fillers may, are to be
 * put in a class of gap 0.
 *
 * The gap between two pieces is 0 if the best-ranked class of both is the same, as it is of two copies of one type
 * in a class, and is marked as common cut; otherwise it is the larger of the two types' gaps. So a marked class
 * changes nothing for a type that names a better-ranked one, and types in no class share no common cut. The order
 * of the classes in a job changes no result.
 *
 * Two pieces are in conflict if a part of one and a part of the other overlap. To touch is not to overlap, so
 * at gap 0 pieces may touch. At a gap h above 0 they are in conflict also if a corner of a part of one is nearer
 * than h to an edge of a part of the other, as a round cutter measures it: Euclidean distance, an edge being a
 * segment, so that beyond its ends the end corner counts. A distance of exactly h is allowed.
 * ------------------------------------------------------------------------------------------------------ */

#define NEST_TRAILER_BYTES        14
#define NEST_TRAILER_BOARD         0
#define NEST_TRAILER_CLASSES       2
#define NEST_TRAILER_TYPES         4
#define NEST_TRAILER_TYPES_LENGTH  6
#define NEST_TRAILER_CLASS_COUNT   8
#define NEST_TRAILER_TYPE_COUNT    9
#define NEST_TRAILER_JOB_LENGTH   10
#define NEST_TRAILER_MARK         12
#define NEST_MARK_FIRST         0x44
#define NEST_MARK_SECOND        0x42
#define NEST_BOARD_BYTES           6
#define NEST_CLASS_BYTES           3
#define NEST_CLASS_NUMBERS         4 /* that read gives of a class: id, rank, gap, mark */

/* ------------------------------------------------------------------------------------------------------
 * The outline's bytes
 *
 * A piece drawn as one outline, which need not be convex: 3 to 8 corners, anticlockwise, x and y of each as signed
 * bytes, -127 to 127, and nothing else; how many they are is told by the length alone. Two neighbouring edges have
 * the corner between them in common and no other point, any other two edges have none: none cross, touch or double
 * back. Corners are numbered in the order given. An outline is no part of a job, and no service takes both.
 * ------------------------------------------------------------------------------------------------------ */

#define NEST_CORNER_BYTES       2 /* x and y */
#define NEST_MAX_OUTLINE_BYTES (NEST_MAX_CORNERS * NEST_CORNER_BYTES)
#define NEST_MAX_TRIANGLES     (NEST_MAX_CORNERS - 2)

/* ------------------------------------------------------------------------------------------------------
 * Candidates
 *
 * A candidate of a type is a column, a row and an allowed turn with the whole piece in m to L - m by m to
 * W - m, edges included; where 2 * m is above L or W there is none. One quarter turn takes (x, y) to (-y, x).
 * Its number, with R rows on the board, is below 4096. A set of candidates is NEST_SET_WORDS(dots) words of 64
 * bits: candidate n is bit n % 64 of word n / 64.
 *
 * Columns, rows, numbers and the sizes below are those of the whole board, whatever the margin.
 * ------------------------------------------------------------------------------------------------------ */

#define NEST_MAX_MARGIN 63

#define NEST_ROWS(width, step)      ((width) / (step) + 1)
#define NEST_COLUMNS(length, step)  ((length) / (step) + 1)
#define NEST_DOTS(width, length, step) (NEST_ROWS(width, step) * NEST_COLUMNS(length, step))
#define NEST_SET_WORDS(dots)        (((dots) + 15) / 16)
#define NEST_CANDIDATE(column, row, turn, rows) (((column) * (rows) + (row)) * 4 + (turn))

/* ------------------------------------------------------------------------------------------------------
 * Buffers
 *
 * A work or row word is 8 bytes, a layout or answer number 2, low byte first. An incomplete last one does not
 * count and keeps its bytes. Save's answer is a job and is counted in bytes. What lies beyond the needed words,
 * numbers or bytes never changes.
 *
 * A layout lists N entries of four numbers each: type, column, row, turn. Entries are ordered by type and
 * within a type by strictly rising candidate number. Its length is the largest x that a piece reaches, plus the
 * margin: the sheet that it takes, clamps included. Of two layouts, at the first entry that differs, the one with
 * the smaller candidate number comes first.
 *
 * A layout passes if it has the demanded copies of each type, each entry is a candidate under the margin, and no
 * two are in conflict. A layout that passed under the square gap of earlier versions passes now, with the same
 * margin and the same gap for every pair, and has the same length.
 * ------------------------------------------------------------------------------------------------------ */

#define NEST_WORD_BYTES         8
#define NEST_NUMBER_BYTES       2
#define NEST_ENTRY_NUMBERS      4 /* type, column, row, turn */
#define NEST_TRIANGLE_NUMBERS   6 /* x and y of three corners */
#define NEST_MAX_SET_WORDS     64

/* Bytes that a call on a given job needs, and bytes that are enough for every job. */
#define NEST_WORK_BYTES(types, pieces, dots) ((types) * (pieces) * NEST_SET_WORDS(dots) * NEST_WORD_BYTES)
#define NEST_LAYOUT_BYTES(pieces)            ((pieces) * NEST_ENTRY_NUMBERS * NEST_NUMBER_BYTES)
#define NEST_ROW_BYTES(dots)                 (NEST_SET_WORDS(dots) * NEST_WORD_BYTES)

#define NEST_MAX_WORK_BYTES   (NEST_MAX_TYPES * NEST_MAX_PIECES * NEST_MAX_SET_WORDS * NEST_WORD_BYTES)
#define NEST_MAX_LAYOUT_BYTES (NEST_MAX_PIECES * NEST_ENTRY_NUMBERS * NEST_NUMBER_BYTES)
#define NEST_MAX_ROW_BYTES    (NEST_MAX_SET_WORDS * NEST_WORD_BYTES)
/* Read writes 6 numbers, 4 a class (at most 32) and one for each byte of the type list (at most 1004). */
#define NEST_MAX_READ_BYTES   ((6 + NEST_CLASS_NUMBERS * NEST_MAX_CLASSES + NEST_MAX_JOB_BYTES) * NEST_NUMBER_BYTES)
/* A saved job is never longer than the job that it was made from. */
#define NEST_MAX_SAVE_BYTES   NEST_MAX_JOB_BYTES
/* Cut needs 36 numbers, however few triangles an outline gives. */
#define NEST_CUT_BYTES        (NEST_MAX_TRIANGLES * NEST_TRIANGLE_NUMBERS * NEST_NUMBER_BYTES)

/* ------------------------------------------------------------------------------------------------------
 * Results
 *
 * Each service returns one 64-bit number of four fields:
 *
 *   bits  0 to  7   the number: NEST_OK, or why the call was refused (enum nest_number)
 *   bits  8 to 15   the verdict of a run (enum nest_verdict); 0 for the other services
 *   bits 16 to 31   read: numbers written; save: bytes written; row: words written; cut: triangles written; check
 *                   and run: the layout's length
 *   bits 32 to 63   the steps that a run took; 0 for the other services
 *
 * A refusal has verdict, count and steps 0 and changes no buffer, except NEST_NONE, which tells its steps and
 * leaves the work words zero.
 * ------------------------------------------------------------------------------------------------------ */

#define NEST_NUMBER(result)  ((unsigned)((result) & 0xFF))
#define NEST_VERDICT(result) ((unsigned)((result) >> 8 & 0xFF))
#define NEST_COUNT(result)   ((unsigned)((result) >> 16 & 0xFFFF)) /* of read, save, row and cut */
#define NEST_LENGTH(result)  NEST_COUNT(result)                    /* of check and run */
#define NEST_STEPS(result)   ((uint32_t)((result) >> 32))

/* Causes are tested as 1 to 7, then 13, 12, 14, 11, 8, 9, then 10, each only after those before it. */
enum nest_number {
    NEST_OK = 0,

    /* The job's sender; any service that is handed a job. */
    NEST_BAD_SIZE = 1,     /* fewer than 14 or more than 1024 bytes */
    NEST_BAD_MARK = 2,     /* wrong mark or stated length */
    NEST_BAD_SECTIONS = 3, /* a section ends past the trailer's offset, or two sections share a byte */
    NEST_BAD_BOARD = 4,    /* a board field out of range, or more than 1024 dots */
    NEST_BAD_CLASSES = 5,  /* an id, gap byte (64 to 127, above 191) or count out of range, an id or a rank twice */
    NEST_BAD_TYPES = 6,    /* a type field, count or sum out of range, a class named that is absent, or
                              records that do not fill the type list exactly */
    NEST_BAD_PART = 7,     /* a part not sound, or a corner at -128 */

    /* The host. */
    NEST_SHORT_WORK = 8,    /* run: work words too few */
    NEST_SHORT_ANSWER = 9,  /* read, run, cut: answer numbers too few; save: answer bytes; row: row words */
    NEST_BAD_LAYOUT = 11,   /* check, run: the layout handed in has another count of numbers, is out of order, or
                               does not pass */
    NEST_NO_CANDIDATE = 12, /* row: the candidate or one of the two types does not exist */
    NEST_BAD_MARGIN = 13,   /* row, check, run: a margin above 63 */
    NEST_BAD_OUTLINE = 14,  /* cut: a corner count out of range or an odd byte left over, a coordinate of -128, a
                               doubled area that is not positive, or two edges that meet anywhere but at the
                               corner shared by neighbours */

    /* The job as a whole. */
    NEST_NONE = 10 /* run, not stopped: no layout passes */
};

enum nest_verdict {
    NEST_ENDED = 0,                /* shortest with NEST_OK, none with NEST_NONE */
    NEST_STOPPED_WITH_LAYOUT = 1,  /* the budget was spent; the best layout completed or given is held */
    NEST_STOPPED_WITH_NOTHING = 2  /* the budget was spent before a layout was complete, and none was given */
};

/* ------------------------------------------------------------------------------------------------------
 * Services
 * ------------------------------------------------------------------------------------------------------ */

/*
 * Read a job. Writes its content as two-byte numbers, a negative coordinate as 65,536 plus it, in this order:
 *
 *   W, L, g,
 *   the number of classes, then id, rank, gap (0 to 63) and mark (1 for common cut, else 0) of each class by
 *       rising id,
 *   the number of types, then for each type: demand, turn mask, class mask, number of parts,
 *       and for each part: the number of corners, then x and y of each corner,
 *   N.
 *
 * Result: NEST_COUNT is how many numbers were written.
 * Refusals: 1 to 7; 9 if the answer buffer holds fewer numbers than these (nothing is written then).
 * NEST_MAX_READ_BYTES are enough for every job.
 */
uint64_t nest_read(const uint8_t *job, size_t job_len, uint8_t *answer, size_t answer_len);

/*
 * Save a job. Writes its content as a job: the board at offset 0, the classes by rising id at offset 6, also where
 * there are none, the types as given, then the trailer, with no skipped bytes. The gap byte of a class is its gap,
 * and 128 plus its gap where it is marked as common cut.
 *
 * A saved job is accepted, and every service that is handed a job answers it as it answers the job that it was
 * made from: read gives the same numbers, and saving it again gives the same bytes. Two accepted jobs are saved to
 * equal bytes exactly if their contents are equal; content is all that read gives, so that the order of the classes
 * does not count.
 *
 * Result: NEST_COUNT is how many bytes were written.
 * Refusals: 1 to 7; 9 if the answer buffer has fewer bytes than these (nothing is written then). A saved job is
 * never longer than the job that it was made from: job_len bytes are enough for it, and NEST_MAX_SAVE_BYTES for
 * every job. The two buffers may not share bytes, so a job is not saved in its own place.
 */
uint64_t nest_save(const uint8_t *job, size_t job_len, uint8_t *answer, size_t answer_len);

/*
 * Row of conflicts. For the candidate `number` of type `kind`, fills the NEST_SET_WORDS(dots) first row words: a
 * bit is set where type `other` has a candidate of that number and it is in conflict with the given one; all
 * other bits of these words are 0, whatever they were before. The margin decides which candidates exist, not
 * which of them are in conflict.
 *
 * Result: NEST_COUNT is how many words were written.
 * Refusals: 1 to 7; 13; 12 if `kind` or `other` is not below the number of types or `number` is no candidate of
 * `kind`; 9 if the row buffer holds fewer words. NEST_MAX_ROW_BYTES are enough for every job.
 */
uint64_t nest_row(const uint8_t *job, size_t job_len, uint64_t margin, uint64_t kind, uint64_t number,
                  uint64_t other, uint8_t *row, size_t row_len);

/*
 * Check whether a layout passes. No buffer is changed, so here the two may share bytes.
 *
 * Result: NEST_LENGTH is the layout's length, margin included.
 * Refusals: 1 to 7; 13; 11 if the buffer holds another count of numbers than 4 * N, they are out of order, or the
 * layout does not pass.
 */
uint64_t nest_check(const uint8_t *job, size_t job_len, uint64_t margin, const uint8_t *layout,
                    size_t layout_len);

/*
 * Run the search among the layouts that respect the margin, taking at most `budget` steps. Lengths include the
 * margin.
 *
 * The search may begin from a layout, whoever made it: one that a stopped run held, of this version or an earlier
 * one. With layout_len 0 none is given; any other buffer is checked as nest_check does under the same margin, and
 * refused if it does not pass. The search then starts at step 0 with the given layout as the best so far, and looks
 * only for shorter ones.
 *
 *   NEST_OK, NEST_ENDED                  shortest: the first 4 * N answer numbers hold the first of the
 *                                        shortest layouts, NEST_LENGTH is its length; but where no layout is
 *                                        shorter than the given one they hold that, also if another of its
 *                                        length comes first
 *   NEST_NONE, NEST_ENDED                no layout passes, so none was given; the answer numbers are unchanged
 *   NEST_OK, NEST_STOPPED_WITH_LAYOUT    the answer numbers hold the shortest layout that the steps taken
 *                                        completed, or the given one if they completed none; NEST_LENGTH is its
 *                                        length
 *   NEST_OK, NEST_STOPPED_WITH_NOTHING   no layout was complete and none was given; the answer numbers are
 *                                        unchanged, the length told is 0
 *
 * NEST_STEPS is the number of steps taken: all that the search needs, or the whole budget where it stopped. It
 * stops exactly when it needs more steps than the budget.
 *
 * The work words need no preparation. After every answer above, the needed T * N * NEST_SET_WORDS(dots) ones
 * are zero. Job and layout are never changed, so the two may share bytes. Besides the buffers lent, nest_run takes
 * up to 256 KiB of stack (measured, not proved).
 *
 * Refusals: 1 to 7; 13; 11 if a layout is given that nest_check refuses by 11 (one byte alone holds no number and
 * is refused); 8 if the work buffer holds fewer words than those; 9 if the answer buffer holds fewer than 4 * N
 * numbers. NEST_MAX_WORK_BYTES and NEST_MAX_LAYOUT_BYTES are enough for every job.
 */
uint64_t nest_run(const uint8_t *job, size_t job_len, uint64_t margin, uint32_t budget, const uint8_t *layout,
                  size_t layout_len, uint8_t *work, size_t work_len, uint8_t *answer, size_t answer_len);

/*
 * Cut an outline into triangles. A corner in line with its two neighbours is dropped first, the lowest numbered if
 * there are several; that gives no triangle. Otherwise the lowest-numbered left turn is cut off whose triangle with
 * its two neighbours, border included, holds no other remaining corner. The corners that remain keep their numbers
 * and are cut likewise, until two are left.
 *
 * Writes six numbers for each triangle, in the order they are cut off: x and y of the corner cut off, of its
 * successor and of its predecessor among the corners that remained, a negative one as 65,536 plus it. It is proved
 * that:
 *
 *   - There are 1 to 6 triangles, each anticlockwise, and their doubled areas sum to the outline's.
 *   - Around each point with fractional coordinates that lies on none of the lines through triangle edges or
 *     outline edges, there are as many triangles as a ray towards larger x crosses the outline: a rising edge
 *     counts plus one and a falling one minus one, an edge counts its lower end and not its upper.
 *   - Every outline without cause for 14 is cut.
 *
 * Result: NEST_COUNT is how many triangles were written, 1 to 6; numbers past theirs stay as they were.
 * Refusals: 14; 9 if the answer buffer holds fewer than 36 numbers, however few triangles there are. NEST_CUT_BYTES
 * are enough for every outline.
 */
uint64_t nest_cut(const uint8_t *outline, size_t outline_len, uint8_t *answer, size_t answer_len);

#ifdef __cplusplus
}
#endif

#endif
