/* The proved solver in a program of your own: the moves of games, commands on tables in memory, and tables that stay open.

   Each function is an export of crates/in_process, whose contract says what it does; docs/COMMANDS.md has the lines, docs/REFUSALS.md
   the codes. Nothing here reads or writes a file, starts a thread, ends the process or keeps a state of its own: different threads may
   call at once, each with arguments of its own.

   What a caller owes, which nothing checks:
   - No pointer is null, also where a length is 0. Behind it are as many bytes as the length says, all of them set once.
   - What a call writes (table, out, count, number, the room) overlaps nothing else that the same call is given.
   - A room is one pointer, which rbg_room_new has made and rbg_room_free has not taken. Pass the address of the one `rbg_room`; keep no
     copy of it, and make one call at a time on it.
   - malloc, realloc and free come from one allocator. No call is made from a signal handler, nor in the forked child of a process
     with threads.

   A text goes to `out`, which has room for `most` bytes, and its length to `*count`. Where it is longer than `most`, nothing is written
   to `out`, and `*count` tells how many bytes it wants. No text ends with a zero byte. */
#ifndef RBGSOLVE_H
#define RBGSOLVE_H

#include <stdbool.h>
#include <stddef.h>
#include <stdint.h>

#ifdef __cplusplus
extern "C" {
#endif

/* What calls answer, as the program's exit statuses. */
enum rbg_status {
    RBG_DONE = 0,
    RBG_REFUSED = 1,   /* `refused` and a code, or a table that is wrong */
    RBG_NO_GOAL = 2,   /* a goal over 1,000,000 points */
    RBG_DAMAGED = 3,   /* a damaged table */
    RBG_NO_TEXT = 4,   /* memory ran out for the text: of rbg_moves, rbg_moves_at, rbg_actions, rbg_check and rbg_lines */
    RBG_NO_MEMORY = 5, /* memory ran out; a call on the bytes of a table has left them as they were */
    RBG_TOO_LONG = 6,  /* the text is longer than `most`, and nothing was done; or, of rbg_answers and rbg_bytes, nothing was given */
    RBG_NOT_OPEN = 7   /* no table of the room has this number, or it was given back */
};

/* The games of texts. Where `*count` is more than `most`, call again with so many bytes. */

/* what `rbgsolve moves GAME` prints */
uint8_t rbg_moves(const uint8_t *game, size_t game_length, uint8_t *out, size_t most, size_t *count);

/* what `rbgsolve moves GAME --at POSITION` prints */
uint8_t rbg_moves_at(const uint8_t *game, size_t game_length, const uint8_t *position, size_t position_length,
                     uint8_t *out, size_t most, size_t *count);

/* what `rbgsolve actions GAME` prints */
uint8_t rbg_actions(const uint8_t *game, size_t game_length, uint8_t *out, size_t most, size_t *count);

/* where and why a text is no game: RBG_REFUSED with `LINE COLUMN CODE WORDS`, or RBG_DONE with no text where it is one */
uint8_t rbg_fault(const uint8_t *game, size_t game_length, uint8_t *out, size_t most, size_t *count);

/* what `rbgsolve check CERTIFICATE` prints; where `has_game`, what `rbgsolve check CERTIFICATE GAME` does. A game that is not asked for
   has the length 0 */
uint8_t rbg_check(const uint8_t *certificate, size_t certificate_length, const uint8_t *game, size_t game_length, bool has_game,
                  uint8_t *out, size_t most, size_t *count);

/* Tables whose bytes you keep, 4,096 for each page. Each call works on a copy of them, and puts it into their place only once it is done
   and its text has gone to `out`: after RBG_TOO_LONG and RBG_NO_MEMORY they are as they were. 64 bytes are enough for the line of each
   command. */

/* makes the empty table in these bytes, which are no table yet: `created` */
uint8_t rbg_create(uint8_t *table, size_t table_length, uint8_t *out, size_t most, size_t *count);

/* loads the game of a text, with a goal of so many points, 1 to 1,000,000, or with none where it is 0: `loaded` */
uint8_t rbg_load(uint8_t *table, size_t table_length, const uint8_t *game, size_t game_length, uint32_t goal,
                 uint8_t *out, size_t most, size_t *count);

/* says whether the table is right: `right ..` or `wrong ..` */
uint8_t rbg_audit(uint8_t *table, size_t table_length, uint8_t *out, size_t most, size_t *count);

/* gives the table of the first `had` of these bytes as many pages as all of them make: `grown` */
uint8_t rbg_grow(uint8_t *table, size_t table_length, size_t had, uint8_t *out, size_t most, size_t *count);

/* brings a table of an earlier layout into today's: `migrated` or `current` */
uint8_t rbg_migrate(uint8_t *table, size_t table_length, uint8_t *out, size_t most, size_t *count);

/* answers lines as `rbgsolve session` does */
uint8_t rbg_session(uint8_t *table, size_t table_length, const uint8_t *lines, size_t lines_length,
                    uint8_t *out, size_t most, size_t *count);

/* answers lines as `rbgsolve look` does */
uint8_t rbg_look(uint8_t *table, size_t table_length, const uint8_t *lines, size_t lines_length,
                 uint8_t *out, size_t most, size_t *count);

/* Tables that stay open. A room holds tables by numbers; the number of a table that was given back is no other's, and is refused. */
typedef struct rbg_room {
    void *at;
} rbg_room;

/* makes a room with no table: rbg_room room; rbg_room_new(&room.at) */
uint8_t rbg_room_new(void **at);

/* gives back a room with all its tables */
void rbg_room_free(rbg_room room);

/* opens the table of these bytes, which are copied, and tells its number; `out` gets the line of a refusal */
uint8_t rbg_open(rbg_room *room, const uint8_t *table, size_t table_length, uint64_t *number,
                 uint8_t *out, size_t most, size_t *count);

/* Answers lines, as a session does or, where it looks, as `rbgsolve look` does. The answers wait until rbg_answers gives them, behind
   those that waited before; `*count` tells how many bytes they are. After a status above 1 the table is opened anew by the next lines, as
   the last answered command left it. */
uint8_t rbg_lines(rbg_room *room, uint64_t number, bool looks, const uint8_t *lines, size_t lines_length, size_t *count);

/* gives the answers that wait, if all of them fit; then none waits */
uint8_t rbg_answers(rbg_room *room, uint64_t number, uint8_t *out, size_t most, size_t *count);

/* gives the bytes of the table, if they fit; the next lines open it anew */
uint8_t rbg_bytes(rbg_room *room, uint64_t number, uint8_t *out, size_t most, size_t *count);

/* gives the number back */
uint8_t rbg_close(rbg_room *room, uint64_t number);

#ifdef __cplusplus
}
#endif

#endif
