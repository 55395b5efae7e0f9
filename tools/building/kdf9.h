/* The machine kdf9 as a library, for C and every language that calls C. docs/LIBRARY.md has an example of each call.

   Who owns what: all memory that a call is given is the caller's, before and after. A call keeps none of it, and gives back all that it takes
   itself. The pieces must not overlap, and a piece of no bytes may be null.

   Threads: calls share nothing, so any number of them may be made at once. A call needs 256 KiB of stack. It takes memory by malloc, so it is
   not for the handler of a signal, nor for a process that was forked from one with threads. */
#ifndef KDF9_H
#define KDF9_H

#include <stdint.h>

#ifdef __cplusplus
extern "C" {
#endif

/* The version of the calls below. It rises where one of them, or what it means, changes. */
#define KDF9_VERSION 1

/* What kdf9_run and kdf9_facts answer: the status with which the program kdf9 ends. */
enum kdf9_status {
    KDF9_DONE = 0,       /* the text is that of the command */
    KDF9_USAGE = 1,      /* the words are no command; the text is a line that says which there are */
    KDF9_JOB = 2,        /* a line of the job has a fault; the text is a line that names it, and so it is below */
    KDF9_DECK = 3,       /* a deck has a fault */
    KDF9_LARGE = 4,      /* the job has more bytes than the command reads */
    KDF9_NO_ROOM = 6,    /* the room is too small for the text; nothing was written, and *size says how much room it wants */
    KDF9_NO_MEMORY = 7,  /* there was no memory; nothing was written, and *size is 0 */
    KDF9_SNAPSHOT = 8    /* a line of the snapshot has a fault */
};

/* Answers a command over a job.

   words: the words of the command in UTF-8, each ended by a newline: "run\n", or "alone\n0\n". They are those of the program kdf9.
   job: what the program would read: a job, or a snapshot or a report after its job.
   room: where the text goes. Nothing is written to it behind the text.
   size: how many bytes the text has, whether or not it is written.

   Each length is in bytes. The result is one of kdf9_status. */
uint32_t kdf9_run(const char *words, uint64_t words_length, const char *job, uint64_t job_length, char *room, uint64_t room_length,
                  uint64_t *size);

/* Tells what there is to know of a job: the facts that a command asks for, as JSON.

   words, job, room, size: as for kdf9_run. The words "run\n" ask for the facts of the run of a job.

   The result is the status with which the program answers the words. With KDF9_NO_ROOM and KDF9_NO_MEMORY nothing is written, as by
   kdf9_run. With any other, the text is JSON: where a line or a deck has a fault, the facts of the fault. docs/FORMATS.md says what it has. */
uint32_t kdf9_facts(const char *words, uint64_t words_length, const char *job, uint64_t job_length, char *room, uint64_t room_length,
                    uint64_t *size);

/* KDF9_VERSION of the library that is linked. */
uint32_t kdf9_version(void);

#ifdef __cplusplus
}
#endif

#endif
