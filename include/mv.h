/*
 * mv.h: the transaction core for a host, in C.
 *
 * The host lends the tables as a run of MV_WORDS words of 64 bits: where they lie, and what becomes of them, is the host's
 * affair. Every call takes a pointer to the first word and how many words there are, tests for itself whether they hold
 * sound tables, and gives a number and a value. The words may hold anything: words that are not sound, a wrong count
 * among them, get MV_UNSOUND with value 0 and stay as they are. A pointer must be valid for its count and not null.
 *
 * A refusal leaves every word as it was, save two: MV_LOST and MV_DIED undo the transaction named, with all that depend
 * on it. Each call's outcome is proved to be the one that docs/CLAIMS.md names for it; docs/INTERFACE.md has the rest.
 *
 * No call allocates, blocks, keeps state between calls or prints; each uses less than 8 KiB of stack. Two threads must not
 * make calls on the same words at the same time.
 */
#ifndef MV_H
#define MV_H

#include <stddef.h>
#include <stdint.h>

#ifdef __cplusplus
extern "C" {
#endif

/* How many words the tables are, and how many things they have room for. */
#define MV_WORDS 1410
#define MV_OBJECTS 32
#define MV_LIVE 32
#define MV_CHAIN 8
#define MV_LOG 512

/* How many bytes a call line and an answer line have, each with its line feed. */
#define MV_CALL_LINE 29
#define MV_ANSWER_LINE 19

/* The answer numbers. The comment says what the value is; where it says nothing, the value is 0. */
enum {
    MV_DONE = 0x00,             /* what the call gives */
    MV_UNSOUND = 0x01,          /* the words do not hold sound tables */
    MV_NO_SUCH_OBJECT = 0x02,   /* an object over 31, or a set of more than 32 bits */
    MV_NEVER_GIVEN_OUT = 0x03,  /* transaction 0, or one that no start has given */
    MV_NO_LONGER_LIVE = 0x04,   /* 2 committed, 3 aborted */
    MV_AFTER_A_PREPARE = 0x05,  /* a read or write after the transaction's first prepare */
    MV_LOST = 0x06,             /* how many fell: the lock, or what was queued, is gone, and the transaction is undone */
    MV_WAIT = 0x07,             /* the holder, which is younger: ask again once it has prepared or ended */
    MV_DIED = 0x08,             /* the holder, which is older: the transaction is undone, start another */
    MV_NOT_ACCESSED = 0x09,     /* prepare of an object that the transaction has not accessed */
    MV_PREPARED_BEFORE = 0x0a,  /* prepare of an object that it has prepared */
    MV_CHAIN_FULL = 0x0b,       /* the object has 8 versions waiting: commit and settle some, then prepare again */
    MV_UNPREPARED = 0x0c,       /* the lowest object that is accessed and not prepared */
    MV_UNSAVED = 0x0d,          /* the lowest object that is written and not saved */
    MV_DEPENDENCY_LIVE = 0x0e,  /* the lowest live transaction that this one depends on: commit that one first */
    MV_LOG_FULL = 0x0f,         /* the log has 512 records */
    MV_PLACES_FULL = 0x10,      /* 32 transactions are live */
    MV_NUMBERS_SPENT = 0x11,    /* number 999,999 has been given */
    MV_BAD_FRAME = 0x12         /* the line is no frame */
};

/* What a call gives. It comes back in two registers. */
typedef struct mv_answer {
    uint64_t number; /* one of the numbers above */
    uint64_t value;
} mv_answer;

/* How many words the tables are: MV_WORDS. */
size_t mv_word_count(void);

/*
 * Makes the words fresh, whatever they held: no transaction, no record, every object's value 0.
 * Answers MV_DONE with 0, or MV_UNSOUND for another count of words than MV_WORDS.
 */
mv_answer mv_fresh(uint64_t *words, size_t words_count);

/*
 * Starts a transaction. Gives its number, which is never given again.
 * Refused: MV_NUMBERS_SPENT, MV_PLACES_FULL.
 */
mv_answer mv_start(uint64_t *words, size_t words_count);

/*
 * Reads an object: at the first access takes its lock, and from then on depends on the live transaction that wrote the
 * latest version, if there is one. Gives the value.
 * Refused: MV_NO_SUCH_OBJECT, MV_NEVER_GIVEN_OUT, MV_NO_LONGER_LIVE, MV_AFTER_A_PREPARE, MV_LOST, MV_WAIT, MV_DIED.
 */
mv_answer mv_read(uint64_t *words, size_t words_count, uint32_t txn, uint8_t object);

/*
 * Writes an object, with the lock and the dependency of a read, whether or not it was ever read. Gives 0.
 * Refused: as mv_read.
 */
mv_answer mv_write(uint64_t *words, size_t words_count, uint32_t txn, uint8_t object, uint64_t value);

/*
 * Prepares an object: frees its lock, and queues the version if it was written. Others can go on with it at once.
 * After its first prepare the transaction may not read or write. Gives 0.
 * Refused: MV_NO_SUCH_OBJECT, MV_NEVER_GIVEN_OUT, MV_NO_LONGER_LIVE, MV_NOT_ACCESSED, MV_PREPARED_BEFORE, MV_LOST,
 * MV_CHAIN_FULL.
 */
mv_answer mv_prepare(uint64_t *words, size_t words_count, uint32_t txn, uint8_t object);

/*
 * Says that the object's queued versions are on storage: the host makes the call when they are. Gives how many.
 * Refused: MV_NO_SUCH_OBJECT.
 */
mv_answer mv_save(uint64_t *words, size_t words_count, uint8_t object);

/*
 * Commits a transaction whose objects are all prepared and saved and which depends on no live one. Gives its log number.
 * Refused: MV_NEVER_GIVEN_OUT, MV_NO_LONGER_LIVE, MV_UNPREPARED, MV_LOST, MV_UNSAVED, MV_DEPENDENCY_LIVE, MV_LOG_FULL.
 */
mv_answer mv_commit(uint64_t *words, size_t words_count, uint32_t txn);

/*
 * Undoes a transaction with all that depend on it, directly or through others. Gives how many fell.
 * Refused: MV_NEVER_GIVEN_OUT, MV_NO_LONGER_LIVE.
 */
mv_answer mv_abort(uint64_t *words, size_t words_count, uint32_t txn);

/*
 * Moves an object's committed versions out of its chain; the last of them becomes the stable one. Gives how many went.
 * Refused: MV_NO_SUCH_OBJECT.
 */
mv_answer mv_settle(uint64_t *words, size_t words_count, uint8_t object);

/*
 * The server of a set of objects stopped (bit n for object n): their locks are free, their queued versions gone. Gives
 * how many were. A transaction that had such a lock learns of it as MV_LOST at its next call.
 * Refused: MV_NO_SUCH_OBJECT.
 */
mv_answer mv_crash(uint64_t *words, size_t words_count, uint64_t set);

/*
 * The whole host stopped: leaves what is durable, settled, and nobody live. Gives how many were live.
 * Refused: never, on sound words.
 */
mv_answer mv_restart(uint64_t *words, size_t words_count);

/*
 * Tells what became of a transaction: 1 live, 2 committed, 3 aborted.
 * Refused: MV_NEVER_GIVEN_OUT.
 */
mv_answer mv_status(uint64_t *words, size_t words_count, uint32_t txn);

/*
 * Gives an object's stable value: that of the last version that was committed and settled.
 * Refused: MV_NO_SUCH_OBJECT.
 */
mv_answer mv_look(uint64_t *words, size_t words_count, uint8_t object);

/*
 * One call as a line of MV_CALL_LINE bytes: 28 lower-case hexadecimal digits and a line feed. Answers as its call does, or
 * MV_BAD_FRAME before all else.
 */
mv_answer mv_line(uint64_t *words, size_t words_count, const uint8_t *line, size_t line_count);

/*
 * Many lines: takes one after the other while the room for answers has MV_ANSWER_LINE bytes left, and writes an answer
 * line for each. Tests the words once, not once a line: far cheaper than single calls. Gives how many lines it answered;
 * bytes of the room past them stay as they were. A last line without its line feed is a line too, and a bad frame.
 * On words that are not sound: MV_UNSOUND, and nothing is written.
 */
mv_answer mv_run(uint64_t *words, size_t words_count, const uint8_t *calls, size_t calls_count, uint8_t *answers,
                 size_t answers_count);

#ifdef __cplusplus
}
#endif

#endif
