/* The library cellarcliff: an engine of observables behind a handle, and what is shown of a text.
 * cellarcliff_names.h names the statuses.
 *
 * In one paragraph. A face (the operators of a language) gives each node that it opens a word of its own, each resource a tag,
 * each item a value: numbers or addresses that the engine never reads. It makes one command at a time by cellar_step, under its own
 * lock. A command comes to a status, an answer, and effects, which stand in lanes. The step, and cellar_next behind it, hand out what the
 * caller is to do, one effect at a time, which it does outside the lock. The engine calls nobody.
 *
 * WHAT NO PROOF SEES: this header. The exports are proved (crates/cellarcliff); that they have these arguments and layouts is compared
 * by `tools/check-header`, and by the assertions at the end.
 *
 * Habits, and whose they are -------------------------------------------------------------------------------------------------
 *
 *                  | SQLite                              | libuv                               | here
 * -----------------+-------------------------------------+-------------------------------------+-----------------------------------
 * who owns the     | opaque, made by the library, told   | the caller's memory, its size part  | the caller's one word, zeros at
 * handle           | through a sqlite3 **                | of the ABI (uv_loop_size() for      | first, which keeps an address that
 *                  |                                     | bindings)                           | only the library reads
 * an answer        | status as the result; text and      | negative errno as the result        | status as the result, the rest
 *                  | values by further calls             |                                     | through one struct
 * NULL             | undefined, but for close, finalize  | undefined; asserts in a debug build | undefined, but for the handle's own
 *                  | and free, which do nothing; a build |                                     | word; CELLAR_ARMOR in the header checks
 *                  | with API_ARMOR answers MISUSE       |                                     | and answers CELLAR_MISUSE
 * a stale handle   | undefined; MISUSE where it is found | undefined                           | a key, a ticket, a hub: safe, and
 *                  |                                     |                                     | answered as what it is: gone
 * growth           | a struct of the library's never     | spare pointers in each struct; a    | no struct changes within a name of
 *                  | changes; new calls (_v2, _v3);      | new name of the library (soname)    | the library; spare fields, which
 *                  | iVersion in structs of the caller's | for each major version              | are zero; new codes; new calls
 * threads          | three modes; by default a mutex of  | one thread for a loop; only         | no lock inside; any thread, one
 *                  | its own                             | uv_async_send from another          | call at a time
 * calling back     | within the call, and the callback   | from uv_run, in its thread          | never: effects are handed out
 *                  | may not close what calls it         |                                     |
 * the end          | close refuses BUSY while statements | close each handle, then run once    | shut, do what is left, finish,
 *                  | are open; close_v2 waits as zombie  | more, then uv_loop_close            | which refuses CELLAR_UNTAKEN; drop loses
 * memory           | a hook for the allocator; NOMEM     | a hook; some calls abort            | malloc; CELLAR_NO_MEMORY and nothing
 *                  | from anywhere                       |                                     | changed; closing asks for none
 *
 * Taken from SQLite: statuses that never change their number; structs that never change; safe ends; one page a call. Taken from
 * libuv: memory of the caller's, sizes that bindings without a C compiler can ask for. Taken from neither: a mutex of its own
 * (a face has to have one anyway, for its own tables, and would lock twice), callbacks, and a thread that owns the handle. */
#ifndef CELLARCLIFF_H
#define CELLARCLIFF_H

#include <stddef.h>
#include <stdint.h>

#ifdef __cplusplus
extern "C" {
#endif

/* Rules for all calls --------------------------------------------------------------------------------------------------------
 *
 * Pointers. Each is to live, initialized memory of its type, aligned to 8 bytes, used by nobody else while the
 *   call runs, and not null. No two overlap. None is kept. With CELLAR_ARMOR defined before this header, a null or misaligned
 *   pointer is answered CELLAR_MISUSE and the library is not called; without it such a pointer is undefined. What no check can find
 *   (freed memory, a copy of a handle) is undefined with both.
 * Buffers. A buffer is a pointer and a count of its elements, which may be 0; the pointer is not null even then.
 * Numbers. A code that is none of its enum, a flag that the command does not have, and a spare field that is not zero, is answered
 *   CELLAR_NO_SUCH_CODE, before any other cause of the command's, but behind CELLAR_NOTHING_KEPT. Which fields a command reads stands
 *   beside it; the others are not looked at.
 * Foreign words. A key (cellar_node, cellar_res) of another engine, of something gone, or made up, names nothing: CELLAR_GONE,
 *   CELLAR_NOT_HELD, CELLAR_NO_LEASE. If it happens to be the key of something open, it names that: a key is no secret. A hub in a
 *   command is a hint: any number may stand there, and none changes an answer. `user` and `value` are never read but given back, `by`,
 *   `depth` and `begun` are compared.
 * Refusal. With any status but 0 nothing changed that a later call can see (the engine may have made a checkpoint, or hubs for
 *   shares, which its events tell), all counts of the answer are 0, no tag and no value was taken in, and no effect comes of the command:
 *   what the step hands out all the same came of others. Where memory is refused while hubs are made, those that were made stay: a
 *   share that takes one of them may have few others below it (CELLAR_HUB_ORDER), as long as it lives.
 * Order of causes. As docs/reference/refusals.md has it; but whoever subscribes to a share is refused CELLAR_GONE, CELLAR_NO_HUB and
 *   CELLAR_HUB_ORDER, in this order, before all others.
 * Memory. Only CELLAR_OPEN, CELLAR_USING, CELLAR_HOLD, CELLAR_APPLY, CELLAR_LEASE, CELLAR_CONNECT, CELLAR_NEXT, CELLAR_PUT, cellar_new
 *   and cellar_dump may answer CELLAR_NO_MEMORY, a step before any other cause. A command that finds the history full answers it where
 *   the checkpoint that would make room is refused memory. Whatever ends or closes is done without memory, but for a checkpoint, which
 *   may be refused and is then made by a later command. What a command comes to may wait for memory: a step of depth 1 hands it
 *   out once there is some. cellar_pass and cellar_stop need none.
 * Threads. There is no lock inside. Any thread may call, one call at a time on a handle: a face puts each handle behind one
 *   mutex, holds it for the call and for its own tables, and does effects without it. Calls on two handles are independent.
 *   A call is short and waits for nobody. A call from within the doing of an effect is one like any other.
 * Signals, fork. No call from a signal handler. In the forked child of a process with threads no call but cellar_drop.
 * `by`. A word for a stack of calls. A thread's number will do where a thread has one stack; with greenlets or fibers each has its own.
 *   Two stacks with one word would be told one thing within another. Zero is a word like any other.
 *
 * Growth. Within one name of the shared library (libcellarcliff.so.A.B before 1.0, libcellarcliff.so.A after):
 *   - the size, the layout and the meaning of each struct stay; spare fields are zero from the caller and from the library;
 *   - each number of an enum keeps its meaning, new ones are added at the end, and no gap is filled again;
 *   - a call keeps its arguments and its statuses. A status that is new for a call comes only where the caller uses a code, a
 *     flag or a spare field that is new too. A program treats a status that it does not know as a refusal;
 *   - a kind of effect that is new comes only to a node that was opened by a code or a flag that is new. So a face never gets
 *     an effect that it does not know;
 *   - what does not fit becomes a call of another name, beside the old one.
 *   cellar_abi answers the number of the header that the library was built for. A face asks once, by CELLAR_FITS, and refuses to run
 *   where the upper half differs from CELLAR_ABI's, or the lower half is less; CELLAR_ANOTHER says so. */
#define CELLAR_ABI UINT32_C(0x00030000) /* upper half: counts changes that break; lower half: what was added since */

uint32_t cellar_abi(void);
#define CELLAR_FITS() (cellar_abi() >> 16 == CELLAR_ABI >> 16 && (cellar_abi() & 0xFFFF) + 1 > (CELLAR_ABI & 0xFFFF))
#define CELLAR_ANOTHER "the library cellarcliff is of another version than this program was built for"

/* The size in bytes of a struct of this header as the library has it, 0 for a number that is none: 0 cellar, 1 cellar_command,
 * 3 cellar_effect, 4 cellar_totals, 5 cellar_event, 6 cellar_stack, 7 cellar_stepped. For bindings that have no C compiler. */
uint32_t cellar_size(uint32_t which);

/* What crosses ---------------------------------------------------------------------------------------------------------------*/

/* A handle, which keeps an engine or nothing: `struct cellar engine = {0};`. Zeros before the first call on it; from then on only the
 * library writes it. Never copy it, since two copies would own one engine. It may be moved while no call runs. */
struct cellar {
  uint64_t at; /* an address: 64 bits on every machine, so that no layout differs */
};

/* Plain values, which may be copied, kept, and passed after what they name is gone. `number` is never given twice. Zeros may be the
 * key of a node, so a key that is to name nothing is two times UINT64_MAX. */
struct cellar_node {
  uint64_t slot, number;
};
struct cellar_res {
  uint64_t slot, number;
};

enum cellar_place { CELLAR_ROOT = 0, CELLAR_SOURCE = 1, CELLAR_INNER = 2, CELLAR_NOTIFIER = 3 };
enum cellar_kind {
  CELLAR_LEAF = 0,
  CELLAR_PASS = 1,
  CELLAR_FLAT = 2,
  CELLAR_SWITCH = 3,
  CELLAR_UNTIL = 4,
  CELLAR_SHARED = 5,   /* a subscriber of a share that is connected while it has one (RefCount) */
  CELLAR_PUBLISHED = 6 /* a subscriber of a share that is connected by hand (Publish) */
};
/* A share is known by its word and its kind: the same word of the other kind is another share. */

/* What a command is. Beside each: the fields that it reads, but for `what`, `by`, `flags` and `spare`; and what its answer tells. */
enum cellar_what {
  CELLAR_OPEN = 0,       /* place kind node user; of a share level hub value -> node; other if is_connected; hub */
  CELLAR_USING = 1,      /* place node user value (the tag)                  -> node, other (the resource). What the opening forces, as
                            a Switch's exchange, stands in the history before the resource */
  CELLAR_HOLD = 2,       /* node value (the tag)                             -> other (the resource) */
  CELLAR_NEXT = 3,       /* node value                                       -> copies */
  CELLAR_COMPLETE = 4,   /* node (a leaf) */
  CELLAR_ERROR = 5,      /* node (a leaf) value                              -> copies */
  CELLAR_FAIL = 6,       /* node (a FlatMap or Switch that owes) value       -> copies */
  CELLAR_DECLINE = 7,    /* node (the same) */
  CELLAR_DISPOSE = 8,    /* node (a root) */
  CELLAR_CONNECT = 9,    /* user value (the share's word) level hub          -> other (the connection), hub */
  CELLAR_DISCONNECT = 10, /* value (the share's word) hub */
  CELLAR_PUT = 11,       /* node user value: an effect of the face's own     -> copies */
  CELLAR_SHUT = 12,      /* closes one of what is open, and answers as that command: gives back the oldest lease that is out, else
                            disposes the oldest root, else disconnects the oldest hub. CELLAR_GONE where nothing is: so repeat it */
  CELLAR_ABORT = 13,     /* node value: ends a node that has no open child   -> copies */
  CELLAR_APPLY = 14,     /* node (the resource): it is used, which the history says */
  CELLAR_REMOVE = 15,    /* node (the resource): it goes before its node closes */
  CELLAR_LEASE = 16,     /* node (the resource)                              -> other (the lease) */
  CELLAR_GIVE_BACK = 17  /* node (the lease) */
};

enum cellar_flag {
  CELLAR_WISHES = 1,         /* of CELLAR_OPEN, CELLAR_USING, CELLAR_CONNECT: its closing stands in the answer of the command that closes it */
  CELLAR_LANE_OF_NODE = 2,   /* of CELLAR_OPEN and CELLAR_USING at a root: it has the lane that `node` has, which is open (else CELLAR_GONE) */
  CELLAR_OF_PROJECTIONS = 4, /* with the flag before, and of CELLAR_PUT: the lane of what is projected to that node, an open FlatMap or Switch
                                (else CELLAR_GONE) */
  CELLAR_QUEUES = 8          /* of CELLAR_NEXT: the item waits in its lane, as it does where its turn has something else */
};
/* Which lane a node has. A root: a new one, or what its flags say. A connection: a new one. A node below: that of the node above it.
 * A FlatMap or Switch has a second one besides, a new one, for what is projected to it and its CELLAR_E_MERGED. What is told of a root
 * and what CELLAR_PUT puts stands in the lane of the node, a release in the lane of the node that held it. */

/* A command: 64 bytes. Fields that a command does not read are zero. */
struct cellar_command {
  uint8_t what;  /* enum cellar_what */
  uint8_t place; /* enum cellar_place */
  uint8_t kind;  /* enum cellar_kind */
  uint8_t flags; /* enum cellar_flag, added up */
  uint32_t level; /* of a share: how many shares stand one below another in its source, as far as can be seen. A hint: with it
                     shares that are connected from the source outwards fit 8 deep, and 400 the other way round */
  uint64_t hub;   /* of a share: what the last answer had, or CELLAR_UNKNOWN_HUB. A hint */
  struct cellar_node node;  /* the node, or the node above; of commands 14 to 17 the resource or the lease */
  uint64_t user;  /* the face's word for the node, or for whom an effect of its own is */
  uint64_t value; /* the item, the error, the tag, or the face's word for the share */
  uint64_t by;    /* not looked at */
  uint64_t spare;
};
#define CELLAR_UNKNOWN_HUB UINT64_MAX

/* What a node is told last, in each of its lanes: a root CELLAR_COMPLETED, CELLAR_FAILED or CELLAR_GONE, a FlatMap or Switch CELLAR_MERGED, one
 * that wishes so its closing. Behind that no effect has its word for that role, so a face frees the word there. So an opening owes its word
 * one such at a root, one of a FlatMap or Switch, one with CELLAR_WISHES; where it owes none, the word is never told. A tag is owed one
 * CELLAR_E_RELEASE. */
enum cellar_effect_kind {
  CELLAR_E_NEXT = 0,      /* user value */
  CELLAR_E_PROJECT = 1,   /* user value: the FlatMap or Switch is to open an inner, to decline, or to fail */
  CELLAR_E_COMPLETED = 2, /* user */
  CELLAR_E_FAILED = 3,    /* user value */
  CELLAR_E_GONE = 4,      /* user: the root was closed without an end */
  CELLAR_E_RELEASE = 5,   /* user is the tag */
  CELLAR_E_PUT = 6,       /* user value: what CELLAR_PUT put there */
  CELLAR_E_MERGED = 7     /* user: nothing more is projected */
};

/* Effects stand in a lane in the order of their commands, and those of one command so: items and ends, then CELLAR_E_GONE and
 * CELLAR_E_MERGED, then releases. Before all these stand the releases of commands from within what is done of that lane, and first of all
 * what a stopped call did not begin. The subscribers of a share hear an item in the order in which they subscribed. In which order nodes end,
 * close and release that one command ends together, is not said. */

/* An effect: 32 bytes. */
struct cellar_effect {
  uint64_t user, value, by; /* `by` is the word of the stack that made its command */
  uint32_t kind;            /* enum cellar_effect_kind */
  uint32_t carries;         /* 1 if it carries `value`: the face gives back one of the `copies` of its command; else 0 */
};

/* Nodes, resources and leases that are open, held and out; of all tags that ever went in: accepted = held + waiting + taken, where
 * waiting are those whose release stands in a lane, and taken those whose release was handed out; all events that ever were. */
struct cellar_totals {
  uint64_t nodes, held, waiting, leases, accepted, taken, events;
  uint64_t effects; /* how many effects stand in lanes, releases among them: what observers are behind with */
};

/* Numbers that are never used again for another meaning. The first nine are those of the library's other calls. */
enum cellar_status {
  CELLAR_DONE = 0,
  CELLAR_NOTHING_KEPT = 1,  /* the handle keeps nothing */
  CELLAR_NOTHING_WAITS = 2, /* cellar_event: no such event */
  CELLAR_HELD = 3,          /* cellar_new: the handle keeps an engine already */
  CELLAR_NO_MEMORY = 4,
  CELLAR_NO_SUCH_CODE = 5,
  CELLAR_UNTAKEN = 6,       /* cellar_finish: an effect waits, or something is open, held or leased */
  CELLAR_SMALL = 7,         /* cellar_dump */
  CELLAR_CUT = 8,           /* cellar_dump: the engine made a checkpoint, so the history is not whole */
  CELLAR_MISUSE = 9,        /* CELLAR_ARMOR alone: a null or misaligned pointer */
  CELLAR_FULL = 16,         /* what is open fills the engine, as cellar_new had it. An inner counts one less, for the item that it answers */
  CELLAR_GONE = 17, CELLAR_WRONG_KIND = 18, CELLAR_PLACE_TAKEN = 19, CELLAR_NOTHING_OWED = 20, CELLAR_NOT_ROOT = 21,
  CELLAR_NO_HUB = 22,        /* each hub of the mode serves another share */
  CELLAR_HUB_ORDER = 23,    /* the share's hub, or all that are free, stand behind that of the connection above */
  CELLAR_CONNECTED = 24, CELLAR_NOT_CONNECTED = 25,
  CELLAR_NOT_HELD = 27, CELLAR_HAS_CHILD = 28, CELLAR_TOO_MANY = 29, CELLAR_NO_LEASE = 30, CELLAR_LEASED = 31
  /* 26 and 32 never come of an engine */
};

/* Calls ----------------------------------------------------------------------------------------------------------------------*/

/* Makes an engine in a handle that keeps nothing: 0, 3 or 4. Its history has at most so many events at a time, those counted in that
 * closing everything needs: where a command would pass that, the engine makes a checkpoint by itself, and the command is tried once
 * more. 0 lets it choose: before a command it makes one behind 4,000 events, or behind four times as many as nodes are open and
 * resources held where that is more, so that it costs each event little. */
uint8_t cellar_new(struct cellar *engine, uint32_t max_events);

/* A face gives a command, does what is handed out, and asks again until nothing is. It names no lane. A call from within `tell` is one
 * like any other, one deeper.
 *
 *   stack.depth++;
 *   status = cellar_step(&engine, &stack, &command, &step);
 *   for (; step.handed; cellar_next(&engine, &stack, &step)) { stack.begun = step.ticket; tell(&step.effect); }
 *   stack.depth--;
 */
struct cellar_stack { /* one for each stack of calls on a handle, as a thread or a fiber has; zeros and `by` at first */
  uint64_t by;        /* its word, which no other stack has */
  uint64_t depth;     /* how many of the face's calls are under way on it, this one included: 1 for the outermost */
  uint64_t begun;     /* the ticket of what it began last */
};

enum { CELLAR_ROOM = 8 };

/* What a step answers: 192 bytes. The counts are always written; the rest where the status is 0 and the command or a count says so. */
struct cellar_stepped {
  struct cellar_node node;  /* what was opened */
  struct cellar_node other; /* the connection, the resource or the lease */
  uint64_t is_connected;    /* 1 if a connection was opened with the subscriber */
  uint64_t hub;             /* of a share: its hub, for the next command of that share. No event has this number */
  uint64_t copies;          /* how many effects carry the value: keep so many references */
  uint64_t closed;          /* how many nodes were closed that wished to be heard of */
  uint64_t closings[CELLAR_ROOM]; /* their words; the rest by cellar_closings. Read them all before the first is acted on */
  uint64_t handed; /* 1: do `effect`, then ask again at this depth. 0: this turn has nothing more */
  uint64_t own;    /* 1: `effect` is the item of this very command, alone, so who begins it at once keeps no copy of the value. 0 says nothing */
  uint64_t ticket; /* of `effect`: 1 or more, and no other effect has it */
  uint64_t spare;
  struct cellar_effect effect;
};

/* Notes what was begun; makes the command, by the stack's word (the command's `by` is not looked at): its status; and, whatever the
 * status, hands out the next thing of this turn: first what was handed out at this depth and not begun, once more; then the rest of the lane
 * that it serves; then what each lane has that is due to it, in the order in which the lanes became due; then what calls deeper on this
 * stack did not come to, the nearest first; at depth 1 then, once a call was stopped, what no call is at, in any
 * order. An item is handed out at once where the turn has nothing else, and the item is first in its lane, which no call is at. Where a command
 * opens an inner in a lane that is due, to whatever turn, that lane is due to this turn, before those into which the command puts something;
 * but not where another stack is at it. So what an earlier inner held is released before the next is subscribed to. */
uint8_t cellar_step(struct cellar *engine, const struct cellar_stack *stack, const struct cellar_command *command,
                    struct cellar_stepped *step);

/* The same without a command: 0 or 1. */
uint8_t cellar_next(struct cellar *engine, const struct cellar_stack *stack, struct cellar_stepped *step);

/* From within an effect: what the call of depth `from` further out is doing counts as told, and its lane is free: 1 to depth - 1. With `now` 1
 * what stands there is this turn's, and the next step hands it out; with 0 it is that call's, or his who puts something there sooner.
 * 0 or 1. */
uint8_t cellar_pass(struct cellar *engine, const struct cellar_stack *stack, uint64_t from, uint8_t now);

/* A call that ends in the midst: what it was handed and began is told, what it did not begin stands first in its lane again. All that is
 * due at this depth or deeper is left to steps of depth 1 on any stack. Asks for no memory: 0 or 1. */
uint8_t cellar_stop(struct cellar *engine, const struct cellar_stack *stack);

/* The closings of the last command on this handle whose status was 0, from this place on. Before any other command, so under the lock
 * under which the command was made: 0 or 1. *count is the lesser of `room` and of how many there are from that place on. */
uint8_t cellar_closings(struct cellar *engine, uint64_t from, uint64_t *words, size_t room, uint64_t *count);

uint8_t cellar_totals(struct cellar *engine, struct cellar_totals *totals);

/* What an event says happened. Beside each, `of`, and the fields that it tells; all others are 0. */
enum cellar_happened {
  CELLAR_H_OPEN = 0,    /* the node above. place; kind, 5 of any share, and then `other` is its hub */
  CELLAR_H_HUB = 1,     /* 0. how: 0 it is connected by its subscribers, 1 by hand */
  CELLAR_H_CONNECT = 2, /* the hub */
  CELLAR_H_ACCEPT = 3,  /* the node that holds a resource. other: any number */
  CELLAR_H_USE = 4, CELLAR_H_REMOVE = 5, CELLAR_H_LEASE = 6, /* the resource */
  CELLAR_H_RETURN = 7,  /* the lease */
  CELLAR_H_ITEM = 8,    /* the leaf. value: 0 */
  CELLAR_H_DECLINE = 9, /* the FlatMap or Switch */
  CELLAR_H_END = 10,    /* the node. how: 0 it completed, 1 it failed. value: 0 */
  CELLAR_H_CLOSE = 11,  /* the node */
  CELLAR_H_TAKE = 12    /* the resource */
};

/* One event of the history, and the history as a dump. */
struct cellar_event {
  uint8_t what;  /* enum cellar_happened */
  uint8_t place; /* enum cellar_place */
  uint8_t kind;  /* enum cellar_kind */
  uint8_t how;
  uint32_t spare;
  uint64_t of, other;
  int64_t value;
};
uint8_t cellar_event(struct cellar *engine, uint64_t place, struct cellar_event *event);
uint8_t cellar_dump(struct cellar *engine, uint8_t *buffer, size_t size, uint64_t *told);

/* Frees the engine if nothing is open, held or leased and no effect waits: 0, 1 or 6. To lose nothing: CELLAR_SHUT until it answers
 * CELLAR_GONE, do what is handed out, then this. */
uint8_t cellar_finish(struct cellar *engine);

/* Frees whatever the handle keeps. It cannot fail, and does nothing where there is nothing. What waits is lost: words, values,
 * and tags that nobody releases then. */
void cellar_drop(struct cellar *engine);

/* Texts ------------------------------------------------------------------------------------------------------------------------*/

/* A call that takes a text reads `length` bytes at its pointer, and writes its answer to the front of `buffer`, which has room for
 * `capacity` bytes. docs/reference/c-library.md lists what a caller has to ensure. */

/* Statuses of the calls that take a text. */
enum cellar_text_status {
  CELLAR_TEXT_DONE = 0,      /* *told bytes of text are in the buffer */
  CELLAR_TEXT_SMALL = 1,     /* the buffer is too small, and unchanged; *told is the capacity that the text needs */
  CELLAR_TEXT_FAULTY = 3,    /* the input is not what the call takes. The buffer is unchanged, and *told is 0 */
  CELLAR_TEXT_NO_MEMORY = 4, /* memory was refused. The buffer is unchanged, and *told is 0 */
  CELLAR_TEXT_SAYS = 5       /* *told bytes are in the buffer: cellar_explain says what is wrong; of cellar_audit the verdict is not `lawful` */
};

/* Judges a dump, as `rxbook audit` does: 0 where the verdict is `lawful`, else 5; or 1, 3 or 4. */
uint8_t cellar_audit(const uint8_t *dump, size_t length, uint8_t *buffer, size_t capacity, size_t *told);

/* Runs a scenario and writes its report, or the dump of its history, as `rxbook run` and `rxbook run --dump` do: 0, 1, 3 or 4. */
uint8_t cellar_run(const uint8_t *scenario, size_t length, uint8_t *buffer, size_t capacity, size_t *told);
uint8_t cellar_run_dump(const uint8_t *scenario, size_t length, uint8_t *buffer, size_t capacity, size_t *told);

/* Runs a scenario and writes its history before the closing, with the names of its nodes, hubs and resources, as
 * `rxbook run --dump --names` does: 0, 1, 3 or 4. A scenario with a checkpoint has none (3). */
uint8_t cellar_run_names(const uint8_t *scenario, size_t length, uint8_t *buffer, size_t capacity, size_t *told);

/* Draws a history as SVG, as `rxbook picture` does: 0, 1, 3 or 4. The input is a dump, or what cellar_run_names writes. */
uint8_t cellar_picture(const uint8_t *input, size_t length, uint8_t *buffer, size_t capacity, size_t *told);

/* Says what is wrong with a scenario or a dump, in a sentence, as `rxbook explain` does: 5, 1 or 4; or 0, and no text, where
 * the input is a scenario, or a dump whose verdict is `lawful`. */
uint8_t cellar_explain(const uint8_t *input, size_t length, uint8_t *buffer, size_t capacity, size_t *told);

/* A live book ------------------------------------------------------------------------------------------------------------------*/

/* A book by lines behind a handle, as `rxbook live` keeps one. The handle is used as `struct cellar` is. */
struct cellar_live {
  void *at; /* neither read nor written by the caller */
};

enum cellar_live_status {
  CELLAR_LIVE_DONE = 0,          /* if there is a buffer, *told bytes of text are at its front */
  CELLAR_LIVE_SMALL = 1,         /* done; the answer waits for cellar_live_read, and the line is not sent again */
  CELLAR_LIVE_NOTHING_KEPT = 2,  /* nothing was done, and *told is 0 */
  CELLAR_LIVE_ANSWER_WAITS = 3,  /* nothing was done */
  CELLAR_LIVE_NO_MEMORY = 4,     /* nothing was done: make the same call again */
  CELLAR_LIVE_HELD = 5,
  CELLAR_LIVE_NOTHING_WAITS = 6
};

/* Makes a book: 0, 4 or 5. Sends a line without its newline: 0 to 4. Reads an answer that waits: 0, 1, 2 or 6. Closes everything, and
 * answers what is left to release: 0 to 4. Frees whatever the handle keeps, and cannot fail. */
uint8_t cellar_live_new(struct cellar_live *book, uint32_t max_events);
uint8_t cellar_live_send(struct cellar_live *book, const uint8_t *line, size_t length, uint8_t *buffer, size_t capacity, size_t *told);
uint8_t cellar_live_read(struct cellar_live *book, uint8_t *buffer, size_t capacity, size_t *told);
uint8_t cellar_live_end(struct cellar_live *book, uint8_t *buffer, size_t capacity, size_t *told);
void cellar_live_drop(struct cellar_live *book);

/* Checks of pointers ---------------------------------------------------------------------------------------------------------*/

#ifdef CELLAR_ARMOR
#define CELLAR_FIT(p) ((p) != NULL && (uintptr_t)(p) % 8 == 0)
static inline uint8_t cellar_new_armored(struct cellar *engine, uint32_t max_events) {
  return CELLAR_FIT(engine) ? cellar_new(engine, max_events) : (uint8_t)CELLAR_MISUSE;
}
static inline uint8_t cellar_step_armored(struct cellar *engine, const struct cellar_stack *stack, const struct cellar_command *command,
                                          struct cellar_stepped *step) {
  return CELLAR_FIT(engine) && CELLAR_FIT(stack) && CELLAR_FIT(command) && CELLAR_FIT(step) ? cellar_step(engine, stack, command, step) : (uint8_t)CELLAR_MISUSE;
}
static inline uint8_t cellar_next_armored(struct cellar *engine, const struct cellar_stack *stack, struct cellar_stepped *step) {
  return CELLAR_FIT(engine) && CELLAR_FIT(stack) && CELLAR_FIT(step) ? cellar_next(engine, stack, step) : (uint8_t)CELLAR_MISUSE;
}
static inline uint8_t cellar_pass_armored(struct cellar *engine, const struct cellar_stack *stack, uint64_t from, uint8_t now) {
  return CELLAR_FIT(engine) && CELLAR_FIT(stack) ? cellar_pass(engine, stack, from, now) : (uint8_t)CELLAR_MISUSE;
}
static inline uint8_t cellar_stop_armored(struct cellar *engine, const struct cellar_stack *stack) {
  return CELLAR_FIT(engine) && CELLAR_FIT(stack) ? cellar_stop(engine, stack) : (uint8_t)CELLAR_MISUSE;
}
static inline uint8_t cellar_closings_armored(struct cellar *engine, uint64_t from, uint64_t *words, size_t room, uint64_t *count) {
  return CELLAR_FIT(engine) && CELLAR_FIT(words) && CELLAR_FIT(count) ? cellar_closings(engine, from, words, room, count) : (uint8_t)CELLAR_MISUSE;
}
static inline uint8_t cellar_totals_armored(struct cellar *engine, struct cellar_totals *totals) {
  return CELLAR_FIT(engine) && CELLAR_FIT(totals) ? cellar_totals(engine, totals) : (uint8_t)CELLAR_MISUSE;
}
static inline uint8_t cellar_event_armored(struct cellar *engine, uint64_t place, struct cellar_event *event) {
  return CELLAR_FIT(engine) && CELLAR_FIT(event) ? cellar_event(engine, place, event) : (uint8_t)CELLAR_MISUSE;
}
static inline uint8_t cellar_dump_armored(struct cellar *engine, uint8_t *buffer, size_t size, uint64_t *told) {
  return CELLAR_FIT(engine) && buffer != NULL && CELLAR_FIT(told) ? cellar_dump(engine, buffer, size, told) : (uint8_t)CELLAR_MISUSE;
}
static inline uint8_t cellar_finish_armored(struct cellar *engine) {
  return CELLAR_FIT(engine) ? cellar_finish(engine) : (uint8_t)CELLAR_MISUSE;
}
static inline void cellar_drop_armored(struct cellar *engine) {
  if (CELLAR_FIT(engine)) cellar_drop(engine);
}
#define cellar_new(e, m) cellar_new_armored(e, m)
#define cellar_step(e, k, c, s) cellar_step_armored(e, k, c, s)
#define cellar_next(e, k, s) cellar_next_armored(e, k, s)
#define cellar_pass(e, k, f, n) cellar_pass_armored(e, k, f, n)
#define cellar_stop(e, k) cellar_stop_armored(e, k)
#define cellar_closings(e, f, w, r, n) cellar_closings_armored(e, f, w, r, n)
#define cellar_totals(e, t) cellar_totals_armored(e, t)
#define cellar_event(e, p, v) cellar_event_armored(e, p, v)
#define cellar_dump(e, b, s, t) cellar_dump_armored(e, b, s, t)
#define cellar_finish(e) cellar_finish_armored(e)
#define cellar_drop(e) cellar_drop_armored(e)
#endif

/* Layouts, which never change ------------------------------------------------------------------------------------------------*/

#ifdef __cplusplus
#define CELLAR_IS static_assert
#else
#define CELLAR_IS _Static_assert
#endif
CELLAR_IS(sizeof(struct cellar) == 8, "cellar");
CELLAR_IS(sizeof(struct cellar_command) == 64, "cellar_command");
CELLAR_IS(offsetof(struct cellar_command, level) == 4 && offsetof(struct cellar_command, hub) == 8, "cellar_command");
CELLAR_IS(offsetof(struct cellar_command, node) == 16 && offsetof(struct cellar_command, user) == 32, "cellar_command");
CELLAR_IS(offsetof(struct cellar_command, value) == 40 && offsetof(struct cellar_command, by) == 48, "cellar_command");
CELLAR_IS(sizeof(struct cellar_effect) == 32 && offsetof(struct cellar_effect, kind) == 24, "cellar_effect");
CELLAR_IS(sizeof(struct cellar_stack) == 24, "cellar_stack");
CELLAR_IS(sizeof(struct cellar_stepped) == 192 && offsetof(struct cellar_stepped, closings) == 64, "cellar_stepped");
CELLAR_IS(offsetof(struct cellar_stepped, handed) == 128 && offsetof(struct cellar_stepped, effect) == 160, "cellar_stepped");
CELLAR_IS(sizeof(struct cellar_totals) == 64, "cellar_totals");
CELLAR_IS(sizeof(struct cellar_event) == 32, "cellar_event");

#ifdef __cplusplus
}
#endif
#endif
