/* The engine for cellarcliff/rx: commands, the doing of what they hand out, and the usual way of an item, with no bytecode between what has
 * to stand together. Without this file rx/_slow.py does the same in Python, by ctypes (rx/_crossing.py chooses).
 *
 * A word of the engine is the address of an object, to which the engine has one reference for each time that it will give the word
 * back. The GIL is the lock: nothing of Python runs between a command and the taking in of its answer, which stands on the stack of the
 * call, nor between the handing out of an effect and its beginning, but for closings. Whatever the user wrote is called with nothing
 * locked. An interrupt comes between two bytecodes, so in what is called from here and never here.
 *
 * It is on Python's limited interface, one file for every Python from 3.10 on, and is linked with nothing: the addresses of the library's
 * calls are given to `bind`. */
#define PY_SSIZE_T_CLEAN
#define Py_LIMITED_API 0x030A0000
#include <Python.h>
#include <stddef.h>
#include <structmember.h>

#include "cellarcliff.h"

/* In Python from 3.11 on, and in its limited interface from 3.12 on: NULL where it is not there. */
extern PyObject *PyObject_Vectorcall(PyObject *, PyObject *const *, size_t, PyObject *) __attribute__((weak));
static inline PyObject *CALL1(PyObject *f, PyObject *it) {
  PyObject *given[2] = {NULL, it}; /* the first is for a method's own object */
  return PyObject_Vectorcall ? PyObject_Vectorcall(f, given + 1, 1 | (size_t)1 << (8 * sizeof(size_t) - 1), NULL) : PyObject_CallFunctionObjArgs(f, it, NULL);
}
#define CALL0(f) PyObject_CallFunctionObjArgs(f, NULL)
#define ITEM PyTuple_GetItem
#define MANY PyTuple_Size
#define FAST(f) ((PyCFunction)(void (*)(void))(f))

/* The calls, in the order of `FAST` in rx/_cellar.py. */
static struct {
  uint8_t (*begin)(struct cellar *, uint32_t);
  uint8_t (*step)(struct cellar *, const struct cellar_stack *, const struct cellar_command *, struct cellar_stepped *);
  uint8_t (*next)(struct cellar *, const struct cellar_stack *, struct cellar_stepped *);
  uint8_t (*pass)(struct cellar *, const struct cellar_stack *, uint64_t, uint8_t);
  uint8_t (*stop)(struct cellar *, const struct cellar_stack *);
  uint8_t (*closings)(struct cellar *, uint64_t, uint64_t *, size_t, uint64_t *);
  void (*drop)(struct cellar *);
} calls;

typedef struct Leaf Leaf;
typedef struct Root Root;
typedef struct { PyObject_HEAD struct cellar_node node; } Key;
/* An item that is told, whose command is not made yet: at `here`, of this leaf. Its ticket, once it is. */
typedef struct { struct Mine *here; Leaf *leaf; PyObject *value; uint64_t ticket; } Unmade;
typedef struct {
  PyObject_HEAD
  struct cellar engine;
  Leaf *alone;                        /* not held: the first of those that are open without the engine */
  int64_t many_alone, waiting, kept;  /* how many those are, and how many notes wait for them; how many references the engine has */
  uint64_t *closed;                   /* a ring: words of nodes that closed and did not hear of it yet */
  size_t room, first, many, wishes;   /* its size, a power of two, is at least `wishes`: nodes that are to hear of it */
  unsigned generation;                /* a child of a fork has no part in an engine of its parent */
  int turns;                          /* how many of the calls under way, of any thread, may have effects in it */
  Unmade *unmade;                     /* the item whose command is not made yet, or NULL */
  char leaves_out;                    /* items of which nothing comes may go without it */
} Core;
struct Root {
  PyObject_HEAD
  Core *core;
  struct cellar_node node;
  PyObject *head, *on_next, *on_error, *on_completed; /* head: the first of the functions through which its notes go, or NULL */
  PyObject *target;                                   /* what an item is told to: a leaf, functions, or a function */
  PyObject *references;                               /* weak ones */
  PyObject *thing;                                    /* not held: its word in the engine */
  int owed;                                           /* how many references to that the engine has for the root's part */
  Leaf *below, *alone;                                /* not held: the first of those that are open below it; its own, where it is alone */
  struct Mine *ending;                                /* the thread that tells its end, or NULL; and how deep */
  uint64_t ending_at;
  char is_keyed, is_stopped, is_over, is_told; /* is_told: an item is told to it now */
};
typedef struct Subject Subject;
struct Waiting { struct Waiting *next; PyObject *value; uint64_t by; uint8_t what; };
struct Leaf {
  PyObject_HEAD
  Core *core;
  struct cellar_node node;
  Subject *owner;           /* not held: a subject that goes sets it to NULL */
  PyObject *on_closed;      /* what is called once the node has closed, or NULL */
  PyObject *thing;          /* as of a root */
  int owed;
  PyObject *above;          /* the root or leaf that is held while this is open, or NULL */
  Root *hears;              /* not held: who alone hears its items, and nothing else comes of them; or NULL, where that is not known */
  Leaf *below, *next, **at; /* not held: those that are open below it, and its place among those below the same, or alone */
  struct Waiting *waits, **last, own; /* notes, of which one needs no memory */
  char is_stopped, is_fed, way;  /* is_fed: who can tell it something holds it */
};
/* The way of what a leaf emits, where that is not straight into the engine: it is a root ALONE, it is BUSY as it is told something without the engine, and
 * something WAITS for the end of that. */
enum { ALONE = 1, BUSY = 2, WAITS = 4 };
typedef struct {
  PyObject_HEAD
  PyObject *down, *down_next, *steps; /* steps: functions, of each a kind: 0 map, 1 filter */
  PyObject *at;                       /* the leaf or the root that they stand at, perhaps with other functions between; or NULL */
  Leaf *leaf, *emits;                 /* not held: where items go on to, if that is a leaf; what somebody else emits by, or NULL */
  Py_ssize_t many;
  char *kinds;
} Chain;
struct Subject {
  PyObject_HEAD
  PyObject *ups, *all;        /* by leaf, what it is told by; and the values of that, until they change */
  PyObject *one;              /* not held: what is told where only one has subscribed, of `all` */
  Leaf *first;                /* not held: the first leaf of `all` */
  PyObject *memory;           /* a list of (time, item) for who comes later, or NULL */
  PyObject *exception;        /* what it failed with, or NULL */
  Py_ssize_t limit;           /* how many it has, or -1 */
  char is_stopped, is_disposed, is_alone; /* is_alone: all that have subscribed are */
};

static PyTypeObject *key_type, *root_type, *leaf_type, *chain_type, *subject_type;
static PyObject *s_on_next, *s_on_error, *s_on_completed, *s_dispose, *s_check, *s_connection;
static PyObject *refuse, *unhandled; /* what a status is raised by, and what hears of an error that nobody raises */
static PyObject *left; /* leaves alone and engines for which something waits that an interrupt left */
static unsigned generation;

/* A call on an engine that is under way in this thread. */
typedef struct { Core *core; struct cellar_stack stack; } Turn;
/* What a telling puts back as it ends: what is told further out, what sources put off till that is told, and whether its lane is let go for them. */
typedef struct { Turn telling; PyObject *put_off; int lets_go; } Telling;
/* What a call of the package puts back as it ends: how many turns are further out than itself, what comes behind these, and of which engine closings are
 * heard. */
typedef struct { uint64_t floor; PyObject *behind; Core *closing; } Outer;

/* This thread: how deep it is in calls of the package, what was raised meanwhile; the innermost turn, that of which an effect is told, and a release; how many
 * are further out than the innermost call of the package, and what comes behind the others; the engine of which closings are heard by that call, and
 * whether something waits for the last of them; and what sources put off: till the call further out goes on, or behind what is told; then its lane may
 * be let go. */
static _Thread_local struct Mine {
  int depth, is_late, lets_go;
  Core *closing;
  uint64_t ident, floor;
  PyObject *errors, *trampoline, *put_off, *behind;
  Turn turn, telling, releasing;
  Unmade *unmade; /* what it tells and did not make, innermost */
} mine;
/* Asked once on the way of an item: to find what is a thread's own takes a call each time. */
static __attribute__((noinline)) struct Mine *here_is(void) {
  if (!mine.ident) mine.ident = PyThread_get_thread_ident();
  return &mine;
}

static PyObject *word(uint64_t it) { return (PyObject *)(uintptr_t)it; }
static uint64_t me(void) { return here_is()->ident; }
static PyObject *new_of(PyObject *it) { return Py_INCREF(it), it; }
static int is_a(PyObject *it, PyTypeObject *type) { return Py_TYPE(it) == type || PyType_IsSubtype(Py_TYPE(it), type); }
static int number(PyObject *value, uint64_t *to) { return *to = PyLong_AsUnsignedLongLong(value), !(*to == (uint64_t)-1 && PyErr_Occurred()); }
/* Calls the first with the rest. */
static PyObject *call_first(PyObject *const *given, Py_ssize_t many) {
  if (many < 1) return PyErr_Format(PyExc_TypeError, "more arguments are wanted");
  if (PyObject_Vectorcall) return PyObject_Vectorcall(*given, given + 1, many - 1, NULL);
  PyObject *rest = PyTuple_New(many - 1), *answer;
  for (Py_ssize_t i = 1; rest && i < many; i++) PyTuple_SetItem(rest, i - 1, new_of(given[i]));
  answer = rest ? PyObject_CallObject(*given, rest) : NULL;
  return Py_XDECREF(rest), answer;
}
static int plain(PyObject *answer) { return Py_XDECREF(answer), answer ? 0 : -1; }
static void keep(Core *core, PyObject *it, uint64_t times) { for (core->kept += (int64_t)times; times; times--) Py_INCREF(it); }
/* What was raised stays so, where something may be. */
static inline void drop(PyObject *it, int failed) {
  PyObject *type, *value, *trace;
  if (!failed) { Py_DECREF(it); return; }
  PyErr_Fetch(&type, &value, &trace);
  Py_DECREF(it);
  PyErr_Restore(type, value, trace);
}
/* Gives a reference of the engine's back. */
static void let_go(Core *core, PyObject *it) { core->kept--, drop(it, 1); }
static int refused(uint8_t status) {
  if (status == CELLAR_NO_MEMORY) return PyErr_NoMemory(), -1;
  return plain(PyObject_CallFunction(refuse, "i", status));
}

/* The collector of cycles. What is open of a subscription is one whole: a leaf holds what is above it, and what is above counts as its own the
 * references that the engine has to the words of those that are open below it, and to its own while there are any. So all of it is collected
 * once nobody can tell any of it something, and then its root is disposed of. What nobody feeds stays, and so does what has closed, until it
 * has heard so. */
static Leaf **below_of(PyObject *it) { return is_a(it, root_type) ? &((Root *)it)->below : &((Leaf *)it)->below; }
static void put_first(Leaf *leaf, Leaf **at) {
  if ((leaf->next = *at)) leaf->next->at = &leaf->next;
  leaf->at = at, *at = leaf, leaf->core->many_alone += leaf->way & ALONE;
}
static void take_out(Leaf *leaf) {
  if (leaf->at) leaf->core->many_alone -= leaf->way & ALONE;
  if (leaf->at && (*leaf->at = leaf->next)) leaf->next->at = leaf->at;
  leaf->at = NULL;
}
static int visit_below(Leaf *leaf, visitproc visit, void *arg) {
  for (; leaf; leaf = leaf->next)
    for (int i = 0; (leaf->is_fed || leaf->below) && i < leaf->owed; i++) Py_VISIT(leaf->thing);
  return 0;
}
/* The root that hears of nothing but this leaf, or NULL. */
static PyObject *alone(Leaf *leaf) {
  if (leaf->way & ALONE) return leaf->above;
  for (; leaf->at && *below_of(leaf->above) == leaf && !leaf->next; leaf = (Leaf *)leaf->above)
    if (is_a(leaf->above, root_type)) return leaf->above;
  return NULL;
}
static void let_go_word(Core *core, PyObject *thing, int *owed) { --*owed, let_go(core, thing); }

/* What is raised ---------------------------------------------------------------------------------------------------------------*/

static void to_hook(PyObject *error) { if (plain(CALL1(unhandled, error))) PyErr_WriteUnraisable(unhandled); }
/* The exception that is raised, taken away: a new reference. */
static PyObject *caught_one(void) {
  PyObject *type, *error, *trace;
  PyErr_Fetch(&type, &error, &trace);
  PyErr_NormalizeException(&type, &error, &trace);
  if (trace) PyException_SetTraceback(error, trace);
  return Py_XDECREF(type), Py_XDECREF(trace), error;
}
static int raise_again(PyObject *error) { return PyErr_Restore(new_of((PyObject *)Py_TYPE(error)), error, PyException_GetTraceback(error)), -1; }
/* What an observer or a release raised: the thread that emitted raises it, if it is this one; else the hook hears it. -1 where it is
 * no Exception, and goes on. */
static int caught(uint64_t by) {
  if (!PyErr_ExceptionMatches(PyExc_Exception)) return -1;
  PyObject *error = caught_one();
  int is_mine = by == me() && mine.depth;
  if (is_mine && !mine.errors) mine.errors = PyList_New(0);
  if (!is_mine || !mine.errors || PyList_Append(mine.errors, error)) PyErr_Clear(), to_hook(error);
  return Py_DECREF(error), 0;
}
static struct Mine *enter(Outer *outer) {
  struct Mine *here = here_is();
  *outer = (Outer){here->floor, here->behind, here->closing};
  here->depth++, here->floor = here->turn.stack.depth, here->behind = NULL, here->closing = NULL;
  return here;
}
/* The end of a call. The outermost raises the first of what observers and releases raised, unless something is raised already, or the
 * caller needs the answer. */
static int tell_left(struct Mine *);
static int leave(struct Mine *here, const Outer *outer, int failed, int is_quiet) {
  if (here->depth == 1 && !failed && PyList_Size(left)) failed = tell_left(here);
  here->floor = outer->floor, here->behind = outer->behind, here->closing = outer->closing;
  if (--here->depth || !here->errors) return failed;
  PyObject *errors = here->errors, *first = failed ? caught_one() : NULL;
  here->errors = NULL;
  for (Py_ssize_t i = 0; i < PyList_Size(errors); i++) {
    PyObject *it = PyList_GetItem(errors, i);
    if (first || is_quiet) to_hook(it);
    else first = new_of(it);
  }
  Py_DECREF(errors);
  return first ? raise_again(first) : failed;
}

/* Commands ---------------------------------------------------------------------------------------------------------------------*/

/* Room for one more that is to hear of its closing. */
static int reserve(Core *core) {
  if (core->wishes < core->room) return 0;
  size_t room = core->room ? 2 * core->room : 64;
  uint64_t *all = PyMem_Malloc(room * sizeof *all);
  if (!all) return PyErr_NoMemory(), -1;
  for (size_t i = 0; i < core->many; i++) all[i] = core->closed[(core->first + i) & (core->room - 1)];
  PyMem_Free(core->closed);
  return core->closed = all, core->room = room, core->first = 0, 0;
}
static void put_closed(Core *core, uint64_t it) {
  Leaf *leaf = (Leaf *)ITEM(word(it), 1);
  leaf->is_stopped = 1, take_out(leaf);
  core->closed[(core->first + core->many++) & (core->room - 1)] = it;
}
static void take_in_closed(Core *core, const struct cellar_stepped *s) {
  for (uint64_t i = 0; i < s->closed && i < CELLAR_ROOM; i++) put_closed(core, s->closings[i]);
  for (uint64_t at = CELLAR_ROOM, count; at < s->closed; at += count) {
    uint64_t more[64];
    calls.closings(&core->engine, at, more, 64, &count);
    for (uint64_t i = 0; i < count; i++) put_closed(core, more[i]);
  }
}
/* An item that only one root hears, where nothing is under way or waits, is told before its command is made. The next call, of whichever thread, makes that
 * first, by the stack of the turn that tells it; so it is as if it had been made, and what comes of it handed out, at the beginning. Where no call comes
 * the item is left out, as one may be that is only heard. */
static void make_now(Unmade *it) {
  struct Mine *here = it->here;
  Core *core = it->leaf->core;
  struct cellar_command c = {.what = CELLAR_NEXT, .node = it->leaf->node, .value = (uintptr_t)it->value};
  struct cellar_stepped s;
  here->unmade = core->unmade = NULL;
  if (core->generation != generation || calls.step(&core->engine, &here->turn.stack, &c, &s)) return;
  keep(core, it->value, s.copies);
  here->turn.stack.begun = here->telling.stack.begun = it->ticket = s.ticket;
}
/* Begins a turn, which makes no command itself: the one further out. */
static Turn begin_turn(struct Mine *here, Core *core) {
  if (here->unmade) make_now(here->unmade);
  Turn outer = here->turn;
  here->turn = (Turn){core, {here->ident, outer.stack.depth + 1, outer.core == core ? outer.stack.begun : 0}};
  return outer;
}
/* The same of one that does. */
static Turn begin(struct Mine *here, Core *core) {
  if (core->unmade && core->generation == generation) make_now(core->unmade); /* else its thread is none of this process */
  core->turns++;
  return begin_turn(here, core);
}
/* Makes a command in the turn that has begun, and takes in what it closed: the status. */
static uint8_t make(struct Mine *here, const struct cellar_command *c, struct cellar_stepped *s) {
  Core *core = here->turn.core;
  if (core->generation != generation) return memset(s, 0, sizeof *s), CELLAR_GONE;
  uint8_t status = calls.step(&core->engine, &here->turn.stack, c, s);
  if (!status && s->closed) take_in_closed(core, s);
  return status;
}
static int do_all(struct Mine *here, struct cellar_stepped *s);
static int do_behind(struct Mine *here, int failed);
/* The end of a turn, and what comes behind it. */
static inline int end_turn(struct Mine *here, const Turn *outer, int failed) {
  here->turn = *outer;
  return here->behind && outer->stack.depth == here->floor ? do_behind(here, failed) : failed;
}
/* The same of one that does: does what was handed out, and what comes of it. */
static inline int end(struct Mine *here, const Turn *outer, struct cellar_stepped *s) {
  Core *core = here->turn.core;
  int failed = s->handed || core->many ? do_all(here, s) : 0;
  return core->turns--, end_turn(here, outer, failed);
}
/* Makes a command of this value, or of none, and does what comes of it. */
static int command(Core *core, const struct cellar_command *c, PyObject *value, uint8_t *status) {
  struct Mine *here = here_is();
  struct cellar_stepped s;
  Turn outer = begin(here, core);
  *status = make(here, c, &s);
  if (value) keep(core, value, s.copies);
  return end(here, &outer, &s);
}

/* Telling ----------------------------------------------------------------------------------------------------------------------*/

static int chain_tell(struct Mine *, Chain *, PyObject *);
static int note(struct Mine *, Leaf *, uint8_t, PyObject *);
static int root_dispose(Root *);

/* What was raised goes on, once the root is disposed of. */
static int dispose_and_go_on(Root *root) {
  PyObject *error = caught_one();
  return root_dispose(root) ? Py_DECREF(error), -1 : raise_again(error);
}
/* Tells a root an item. What it raises is raised, and disposes of it unless that is an interrupt, which is nobody's fault. */
static inline int root_tell(struct Mine *here, Root *root, PyObject *value) {
  if (root->is_stopped) return 0;
  PyObject *target = new_of(root->target);
  char outer = root->is_told;
  root->is_told = 1;
  int status = Py_TYPE(target) == leaf_type    ? note(here, (Leaf *)target, CELLAR_NEXT, value)
               : Py_TYPE(target) == chain_type ? chain_tell(here, (Chain *)target, value)
                                               : plain(CALL1(target, value));
  root->is_told = outer, Py_DECREF(target);
  return status && PyErr_ExceptionMatches(PyExc_Exception) ? dispose_and_go_on(root) : status;
}
/* The observer hears an end, unless it is stopped; then nothing of it stays. */
static int root_end(Root *root, PyObject *error) {
  if (root->is_stopped) return 0;
  PyObject *call = new_of(error ? root->on_error : root->on_completed);
  root->is_stopped = 1;
  int status = plain(error ? CALL1(call, error) : CALL0(call));
  Py_DECREF(call);
  return status ? dispose_and_go_on(root) : root_dispose(root);
}
static int root_ended(Root *root, PyObject *error) {
  root->is_over = 1;
  if (root->is_stopped) return 0;
  struct Mine *here = here_is();
  root->ending = root->is_keyed ? here : NULL, root->ending_at = here->telling.stack.depth;
  PyObject *head = root->head ? new_of(root->head) : NULL;
  int status = head ? plain(PyObject_CallMethodObjArgs(head, error ? s_on_error : s_on_completed, error, NULL)) : root_end(root, error);
  return Py_XDECREF(head), root->ending = NULL, status;
}
/* A resource: a callable, or one in a tuple whose `dispose` is called. */
static int release(PyObject *tag) { return plain(PyTuple_Check(tag) ? PyObject_CallMethodObjArgs(ITEM(tag, 0), s_dispose, NULL) : CALL0(tag)); }
static int tell_release(struct Mine *here, PyObject *tag) {
  Turn outer = here->releasing;
  here->releasing = here->telling;
  int status = release(tag);
  return here->releasing = outer, status;
}
/* Does what an effect says. The engine keeps the word of whoever hears an item. */
static int tell(struct Mine *here, Core *core, const struct cellar_effect *e) {
  PyObject *user = word(e->user), *value = e->carries && e->value ? word(e->value) : NULL;
  int status = 0;
  Py_INCREF(user);
  switch (e->kind) {
    case CELLAR_E_NEXT: status = root_tell(here, (Root *)ITEM(user, 0), value); break;
    case CELLAR_E_PROJECT: status = plain(CALL1(ITEM(user, 2), value)); break;
    case CELLAR_E_COMPLETED: status = root_ended((Root *)ITEM(user, 0), NULL); break;
    case CELLAR_E_FAILED: status = root_ended((Root *)ITEM(user, 0), value); break;
    case CELLAR_E_GONE: ((Root *)ITEM(user, 0))->is_over = ((Root *)ITEM(user, 0))->is_stopped = 1; break;
    case CELLAR_E_RELEASE: status = tell_release(here, user); break;
    case CELLAR_E_PUT: status = plain(CALL0(ITEM(user, 0))); break;
  }
  drop(user, status);
  if (e->kind == CELLAR_E_RELEASE || e->kind == CELLAR_E_PUT) let_go(core, user);
  else if (e->kind > CELLAR_E_PROJECT) let_go_word(core, user, e->kind == CELLAR_E_MERGED ? &((Leaf *)ITEM(user, 1))->owed : &((Root *)ITEM(user, 0))->owed);
  if (value) core->kept--, drop(value, status);
  return status;
}
static int is_some(PyObject *queue) { return queue && PyList_Size(queue) > 0; }
static PyObject *pop(PyObject *queue) {
  PyObject *it = new_of(PyList_GetItem(queue, 0));
  if (PyList_SetSlice(queue, 0, 1, NULL)) Py_CLEAR(it);
  return it;
}
/* Does the first of what was put off; what that puts off comes behind it. */
static int go_on(PyObject *queue) {
  PyObject *before = mine.trampoline, *it = pop(queue);
  if (!it) return -1;
  mine.trampoline = queue;
  int status = plain(CALL0(it));
  return mine.trampoline = before, Py_DECREF(it), status;
}
/* What is told counts as told: its lane is free. */
static void let_pass(struct Mine *here) {
  struct cellar_stack deeper = here->telling.stack;
  if (deeper.by) deeper.depth++, calls.pass(&here->telling.core->engine, &deeper, deeper.depth - 1, 0);
}
/* Begins to tell what comes of this turn: what was told further out. By 0 where the engine does not know of it. */
static Telling begin_telling(struct Mine *here, uint64_t by) {
  Telling outer = {here->telling, here->put_off, here->lets_go};
  here->telling = here->turn, here->telling.stack.by = by, here->lets_go = 0, here->put_off = NULL;
  return outer;
}
static void end_telling(struct Mine *here, const Telling *outer) {
  Py_XDECREF(here->put_off);
  here->telling = outer->telling, here->lets_go = outer->lets_go, here->put_off = outer->put_off;
}
/* Does what was put off as something was told. */
static int do_put_off(struct Mine *here, uint64_t by) {
  int status = 0;
  while (!status && is_some(here->put_off)) {
    if (here->lets_go && here->telling.core->generation == generation) let_pass(here);
    if (go_on(here->put_off)) status = caught(by);
  }
  return status;
}
/* Does what was handed out, and what comes next, until nothing does: 0, or -1 where what is no Exception goes on. */
static int do_each(struct Mine *here, struct cellar_stepped *s) {
  Core *core = here->turn.core;
  Telling outer = begin_telling(here, here->ident);
  int status;
  do {
    uint64_t by = s->effect.by;
    here->turn.stack.begun = here->telling.stack.begun = s->ticket;
    status = tell(here, core, &s->effect) ? caught(by) : 0;
    if (!status) status = do_put_off(here, by);
    if (status || core->generation != generation) break;
    calls.next(&core->engine, &here->turn.stack, s);
  } while (s->handed);
  return end_telling(here, &outer), status;
}
/* Its subject has it no more. */
static void disown(Leaf *leaf) {
  Subject *owner = leaf->owner;
  leaf->owner = NULL;
  if (!owner) return;
  Py_CLEAR(owner->all);
  if (PyDict_DelItem(owner->ups, (PyObject *)leaf)) PyErr_Clear();
}
static int go_through(Core *, int);
/* Tells those that closed, the first first. What one of them closes is heard behind the others, so nothing recurses; what that came to, behind all. */
static int hear_closed(Core *core) {
  int status = 0, was_late = mine.is_late, is_late;
  Core *outer = mine.closing;
  mine.closing = core, mine.is_late = 0;
  while (!status && core->many) {
    PyObject *it = word(core->closed[core->first]);
    Leaf *leaf = (Leaf *)ITEM(it, 1);
    core->first = (core->first + 1) & (core->room - 1);
    core->many--, core->wishes--;
    disown(leaf);
    PyObject *call = leaf->on_closed;
    leaf->on_closed = NULL;
    if (call && plain(CALL0(call))) status = caught(me());
    Py_XDECREF(call); Py_CLEAR(leaf->above);
    let_go_word(core, it, &leaf->owed);
  }
  is_late = mine.is_late, mine.is_late = was_late, mine.closing = outer;
  return status || !is_late ? status : go_through(core, 0);
}
/* The turn is interrupted: the rest is left to the next call that reaches the engine. */
static int stop(struct Mine *here, Core *core) {
  if (core->generation == generation) calls.stop(&core->engine, &here->turn.stack), PyList_Append(left, (PyObject *)core);
  return -1;
}
/* Closings first. */
static int do_all(struct Mine *here, struct cellar_stepped *s) {
  Core *core = here->turn.core;
  if (core->generation != generation) return 0;
  if (here->closing == core) return here->is_late |= (int)s->handed, 0;
  int status = core->many ? hear_closed(core) : 0;
  if (!status && s->handed) status = do_each(here, s);
  return status ? stop(here, core) : 0;
}
/* Each of what comes behind, also where something was interrupted; and then what would have been put off, a tuple, unless somebody else goes on with that. */
static int do_behind(struct Mine *here, int failed) {
  PyObject *error = failed ? caught_one() : NULL, *behind = here->behind, *queue = here->trampoline || here->telling.core ? NULL : PyList_New(0);
  here->behind = NULL;
  for (Py_ssize_t i = 0; i < PyList_Size(behind); i++) {
    PyObject *it = PyList_GetItem(behind, i), *call = PyTuple_Check(it) ? ITEM(it, 0) : it;
    if ((it != call && queue ? PyList_Append(queue, call) : plain(CALL0(call))) && caught(here->ident)) {
      if (error) PyErr_Clear();
      else error = caught_one();
    }
  }
  while (!error && is_some(queue))
    if (go_on(queue) && caught(here->ident)) error = caught_one();
  Py_DECREF(behind);
  Py_XDECREF(queue);
  return error ? raise_again(error) : 0;
}

/* Leaves, functions ------------------------------------------------------------------------------------------------------------*/
/* An item or an end into its lane; its value is kept. What the engine refuses it by, or 0. */
static uint8_t put_there(struct Mine *here, Leaf *leaf, uint8_t what, PyObject *value, struct cellar_stepped *s) {
  struct cellar_command c = {.what = what, .node = leaf->node, .value = what == CELLAR_COMPLETE ? 0 : (uintptr_t)value};
  uint8_t status = make(here, &c, s);
  if (!status) keep(leaf->core, value, s->copies);
  if (status != CELLAR_GONE) return status;
  return leaf->is_stopped = 1, 0;
}
/* Tells an item whose command is not made yet. */
static int tell_unmade(struct Mine *here, Leaf *leaf, PyObject *value) {
  Core *core = leaf->core;
  Root *root = leaf->hears;
  Unmade it = {here, leaf, value, 0};
  struct cellar_stepped s;
  Turn outer = begin(here, core);
  Telling telling = begin_telling(here, here->ident);
  here->unmade = core->unmade = &it, s.handed = 0, Py_INCREF(root);
  int status = root_tell(here, root, value) ? caught(here->ident) : 0;
  if (here->unmade && is_some(here->put_off)) make_now(&it);
  if (here->unmade) here->unmade = core->unmade = NULL;
  if (!status) status = do_put_off(here, here->ident);
  end_telling(here, &telling);
  if (it.ticket) core->kept--, drop(value, status);
  if (it.ticket && status) stop(here, core);
  else if (it.ticket && core->generation == generation) calls.next(&core->engine, &here->turn.stack, &s);
  status = status ? core->turns--, end_turn(here, &outer, status) : end(here, &outer, &s);
  return drop((PyObject *)root, status), status;
}
/* An item of this leaf was handed out as it was made: if its root hears that, and no share is between, it hears all of them. */
static void find_hears(Leaf *leaf, PyObject *user) {
  PyObject *it = leaf->above;
  while (it && Py_TYPE(it) == leaf_type) it = ((Leaf *)it)->above;
  if (it && it == ITEM(user, 0)) leaf->hears = (Root *)it;
}
/* The same, and to whoever is to hear it. */
static int note_there(struct Mine *here, Leaf *leaf, uint8_t what, PyObject *value) {
  Core *core = leaf->core;
  if (what == CELLAR_NEXT && leaf->hears && !core->turns && core->generation == generation && !PyList_Size(left)) return tell_unmade(here, leaf, value);
  struct cellar_stepped s;
  Turn outer = begin(here, core);
  uint8_t status = put_there(here, leaf, what, value, &s);
  if (!status && core->leaves_out && s.handed && s.own && s.effect.kind == CELLAR_E_NEXT && !s.closed) find_hears(leaf, word(s.effect.user));
  int failed = end(here, &outer, &s);
  return failed || !status ? failed : refused(status);
}

/* A root that is a leaf alone and holds nothing needs no engine: nothing but its end and its disposal closes it, nothing is released with it, and of
 * an item nothing comes but that it is heard. So it is told by a mark, as long as it is told something, and a list of what comes meanwhile. It enters
 * the engine as soon as it holds something, or its subject has a subscriber that is there; what waits then goes there in its turn. */
static int wait(struct Mine *here, Leaf *leaf, uint8_t what, PyObject *value) {
  struct Waiting *it = leaf->own.value ? PyMem_Malloc(sizeof *it) : &leaf->own;
  if (!it) return PyErr_NoMemory(), -1;
  *it = (struct Waiting){NULL, new_of(value), here->ident, what};
  leaf->last = &(*(leaf->waits ? leaf->last : &leaf->waits) = it)->next;
  leaf->way |= WAITS, leaf->core->waiting++;
  return 0;
}
/* What waits first, taken away. */
static struct Waiting first_of(Leaf *leaf) {
  struct Waiting *first = leaf->waits, it = *first;
  if (!(leaf->waits = it.next)) leaf->way &= ~WAITS;
  leaf->core->waiting--;
  if (first == &leaf->own) leaf->own.value = NULL;
  else PyMem_Free(first);
  return it;
}
static void forget_waiting(Leaf *leaf) { while (leaf->waits) drop(first_of(leaf).value, 1); }
/* It has ended, or was left. */
static void leave_alone(Leaf *leaf) {
  leaf->is_stopped = 1;
  if (leaf->way & ALONE) take_out(leaf), disown(leaf);
}
/* Tells a note, by the engine where it has entered that. */
static int hears(struct Mine *here, Leaf *leaf, uint8_t what, PyObject *value) {
  if (!(leaf->way & ALONE)) return note_there(here, leaf, what, value);
  Root *root = (Root *)leaf->above;
  if (!root) return 0;
  Py_INCREF(root);
  if (what != CELLAR_NEXT) { root->alone = NULL; Py_CLEAR(leaf->above); }
  int status = what == CELLAR_NEXT   ? root_tell(here, root, value)
               : what == CELLAR_SHUT ? (root->is_over = root->is_stopped = 1, 0)
                                     : root_ended(root, what == CELLAR_ERROR ? value : NULL);
  return drop((PyObject *)root, status), status;
}
/* Tells this, unless that is NULL, and what waits; with what sources put off meanwhile, as a lane is served. */
static int tell_alone(struct Mine *here, Leaf *leaf, uint8_t what, PyObject *value) {
  Core *core = leaf->core;
  Turn outer = begin_turn(here, core);
  Telling telling = begin_telling(here, 0);
  struct Waiting it = {NULL, value, here->ident, what};
  int status = 0, is_busy = 1;
  Py_INCREF(leaf), Py_XINCREF(value), leaf->way |= BUSY;
  while (!status && is_busy && core->generation == generation && (it.value || leaf->waits)) {
    if (!it.value) it = first_of(leaf);
    if (hears(here, leaf, it.what, it.value)) status = caught(it.by);
    drop(it.value, status), it.value = NULL;
    if (here->put_off) {
      if (here->lets_go) leaf->way &= ~BUSY;
      if (!status) status = do_put_off(here, it.by);
      is_busy = !here->lets_go || !(leaf->way & BUSY); /* else another thread is at it */
      leaf->way |= BUSY;
    }
  }
  if (is_busy) leaf->way &= ~BUSY;
  if (core->generation != generation) forget_waiting(leaf);
  if (is_busy && leaf->waits) PyList_Append(left, (PyObject *)leaf);
  end_telling(here, &telling), drop((PyObject *)leaf, status);
  return end_turn(here, &outer, status);
}
/* Tells what waits, unless somebody is at it; after an interrupt the next call of any thread does. */
static int tell_waiting(struct Mine *here, Leaf *leaf, int failed) {
  if (!(leaf->way & WAITS) || leaf->way & BUSY) return failed;
  return failed ? PyList_Append(left, (PyObject *)leaf), failed : tell_alone(here, leaf, 0, NULL);
}
/* A note of one alone, or of one that was and is told something. */
static int note_alone(struct Mine *here, Leaf *leaf, uint8_t what, PyObject *value) {
  if (leaf->core->generation != generation) return leaf->is_stopped = 1, 0;
  if (leaf->way == ALONE) return tell_alone(here, leaf, what, value);
  return wait(here, leaf, what, value) ? -1 : tell_waiting(here, leaf, 0);
}
static int tell_left(struct Mine *here) {
  int status = 0;
  while (!status && PyList_Size(left)) {
    PyObject *it = pop(left);
    status = Py_TYPE(it) == leaf_type ? tell_waiting(here, (Leaf *)it, 0) : go_through((Core *)it, 0);
    drop(it, status);
  }
  return status;
}

/* An item or an end that a leaf tells. */
static int note(struct Mine *here, Leaf *leaf, uint8_t what, PyObject *value) {
  if (leaf->is_stopped) return 0;
  if (what != CELLAR_NEXT) leave_alone(leaf);
  return leaf->way ? note_alone(here, leaf, what, value) : note_there(here, leaf, what, value);
}
/* Whether what they stand at is over, as far as can be seen. */
static int is_over(Chain *chain) {
  PyObject *at = chain->at;
  return at && (Py_TYPE(at) == leaf_type ? ((Leaf *)at)->is_stopped : ((Root *)at)->is_stopped);
}
/* An item through functions, until one ends what they stand at: a new reference to what comes out; NULL where nothing does, with `failed` -1
 * where that is raised. */
static PyObject *through(Chain *chain, PyObject *value, int *failed) {
  *failed = 0;
  Py_INCREF(value);
  for (Py_ssize_t i = 0; i < chain->many; i++) {
    if (is_over(chain)) return Py_DECREF(value), NULL;
    PyObject *answer = CALL1(ITEM(chain->steps, i), value);
    int passes = !answer ? -1 : !chain->kinds[i] || answer == Py_True ? 1 : answer == Py_False ? 0 : PyObject_IsTrue(answer);
    PyObject *over = passes > 0 && !chain->kinds[i] ? value : answer; /* a mapped item gives way */
    if (over == value) value = answer;
    Py_XDECREF(over);
    if (passes > 0) continue;
    Py_DECREF(value);
    if (!passes) return NULL;
    if (!PyErr_ExceptionMatches(PyExc_Exception)) return *failed = -1, NULL;
    PyObject *error = caught_one();
    *failed = plain(PyObject_CallMethodObjArgs(chain->down, s_on_error, error, NULL));
    return Py_DECREF(error), NULL;
  }
  return value;
}
static int chain_tell(struct Mine *here, Chain *chain, PyObject *value) {
  int failed;
  PyObject *it = through(chain, value, &failed);
  if (!it) return failed;
  if (chain->leaf) failed = note(here, chain->leaf, CELLAR_NEXT, it);
  else if (chain->down_next) failed = is_over(chain) ? 0 : plain(CALL1(chain->down_next, it));
  else if (!((Root *)chain->down)->is_stopped) failed = plain(CALL1(((Root *)chain->down)->on_next, it));
  return Py_DECREF(it), failed;
}
static inline int tell_up(struct Mine *here, PyObject *up, PyObject *value) {
  if (Py_TYPE(up) == leaf_type) return note(here, (Leaf *)up, CELLAR_NEXT, value);
  if (Py_TYPE(up) == chain_type) return chain_tell(here, (Chain *)up, value);
  return plain(PyObject_CallMethodObjArgs(up, s_on_next, value, NULL));
}

static Leaf *leaf_at(PyObject *all, Py_ssize_t i) { return (Leaf *)(Py_TYPE(all) == leaf_type ? all : ITEM(ITEM(all, i), 1)); }
static PyObject *none_or_null(int status) { return status ? NULL : new_of(Py_None); }
static PyObject *leaf_next(Leaf *self, PyObject *value) { return none_or_null(note(here_is(), self, CELLAR_NEXT, value)); }
/* The leaf whose `on_next` this is, or NULL. */
static Leaf *leaf_of(PyObject *next) {
  int is_leafs = Py_TYPE(next) == &PyCFunction_Type && PyCFunction_GetFunction(next) == (PyCFunction)leaf_next;
  return is_leafs ? (Leaf *)PyCFunction_GetSelf(next) : NULL;
}
static PyObject *leaf_error(Leaf *self, PyObject *error) { return none_or_null(note(here_is(), self, CELLAR_ERROR, error)); }
static PyObject *leaf_completed(Leaf *self, PyObject *Py_UNUSED(unused)) { return none_or_null(note(here_is(), self, CELLAR_COMPLETE, Py_None)); }
static int leaf_init(Leaf *self, PyObject *given, PyObject *Py_UNUSED(named)) {
  if (MANY(given) != 1) return PyErr_Format(PyExc_TypeError, "a core is wanted"), -1;
  return self->core = (Core *)new_of(ITEM(given, 0)), 0;
}
static PyMethodDef leaf_methods[] = {{"on_next", (PyCFunction)leaf_next, METH_O, NULL}, {"on_error", (PyCFunction)leaf_error, METH_O, NULL},
                                     {"on_completed", (PyCFunction)leaf_completed, METH_NOARGS, NULL}, {NULL, NULL, 0, NULL}};
static PyMemberDef leaf_members[] = {{"number", T_ULONGLONG, offsetof(Leaf, node.number), READONLY, NULL}, {"is_stopped", T_BOOL, offsetof(Leaf, is_stopped), 0, NULL}, {"on_closed", T_OBJECT, offsetof(Leaf, on_closed), 0, NULL},
                                     {"is_fed", T_BOOL, offsetof(Leaf, is_fed), 0, NULL}, {"above", T_OBJECT, offsetof(Leaf, above), 0, NULL}, {NULL, 0, 0, 0, NULL}};
static int leaf_traverse(Leaf *self, visitproc visit, void *arg) {
  Py_VISIT(Py_TYPE(self)); Py_VISIT(self->core); Py_VISIT(self->on_closed); Py_VISIT(self->above);
  for (struct Waiting *it = self->waits; it; it = it->next) Py_VISIT(it->value);
  for (int i = 0; !self->above && self->below && i < self->owed; i++) Py_VISIT(self->thing); /* a connection's */
  return visit_below(self->below, visit, arg);
}
static int leaf_clear(Leaf *self) {
  self->is_stopped = 1, take_out(self), forget_waiting(self);
  if (self->way & ALONE && self->above) ((Root *)self->above)->alone = NULL;
  Py_CLEAR(self->core); Py_CLEAR(self->on_closed); Py_CLEAR(self->above); return 0;
}

static int chain_init(Chain *self, PyObject *given, PyObject *Py_UNUSED(named)) {
  PyObject *down, *kinds, *steps, *emits = NULL;
  if (!PyArg_ParseTuple(given, "OO!O!|O!", &down, &PyBytes_Type, &kinds, &PyTuple_Type, &steps, leaf_type, &emits)) return -1;
  self->down = new_of(down), self->steps = new_of(steps), self->emits = emits ? (Leaf *)new_of(emits) : NULL;
  self->many = MANY(steps);
  if (!(self->kinds = PyMem_Malloc(self->many + 1))) return PyErr_NoMemory(), -1;
  memcpy(self->kinds, PyBytes_AsString(kinds), self->many);
  if (Py_TYPE(down) == leaf_type) self->leaf = (Leaf *)down;
  else if (!is_a(down, root_type) && !(self->down_next = PyObject_GetAttr(down, s_on_next))) return -1;
  if (self->down_next) self->leaf = leaf_of(self->down_next);
  PyObject *at = self->leaf ? new_of((PyObject *)self->leaf) : self->down_next ? PyObject_GetAttrString(down, "node_is") : new_of(down);
  if (!at) PyErr_Clear();
  else if (Py_TYPE(at) == leaf_type || is_a(at, root_type)) self->at = at;
  else Py_DECREF(at);
  return 0;
}
/* What create() gives, and timers have, `emits`: from anywhere, and it is told before the call ends. */
static PyObject *chain_tells(Chain *self, PyObject *name, PyObject *value) {
  if (self->emits && self->emits->is_stopped) Py_RETURN_NONE;
  Outer outer;
  struct Mine *here = self->emits ? enter(&outer) : here_is();
  int status = name ? plain(PyObject_CallMethodObjArgs(self->down, name, value, NULL)) : chain_tell(here, self, value);
  return none_or_null(self->emits ? leave(here, &outer, status, 0) : status);
}
static PyObject *chain_next(Chain *self, PyObject *value) { return chain_tells(self, NULL, value); }
static PyObject *chain_error(Chain *self, PyObject *error) { return chain_tells(self, s_on_error, error); }
static PyObject *chain_completed(Chain *self, PyObject *Py_UNUSED(unused)) { return chain_tells(self, s_on_completed, NULL); }
static PyObject *chain_dispose(Chain *Py_UNUSED(self), PyObject *Py_UNUSED(unused)) { Py_RETURN_NONE; }
static PyObject *chain_is_stopped(Chain *self, void *Py_UNUSED(unused)) {
  if (!self->emits && !self->at) return PyObject_GetAttrString(self->down, "is_stopped");
  return PyBool_FromLong(self->emits ? self->emits->is_stopped : is_over(self));
}
static PyMethodDef chain_methods[] = {{"on_next", (PyCFunction)chain_next, METH_O, NULL}, {"on_error", (PyCFunction)chain_error, METH_O, NULL},
                                      {"on_completed", (PyCFunction)chain_completed, METH_NOARGS, NULL}, {"dispose", (PyCFunction)chain_dispose, METH_NOARGS, NULL}, {NULL, NULL, 0, NULL}};
static PyMemberDef chain_members[] = {{"down", T_OBJECT, offsetof(Chain, down), READONLY, NULL}, {"node_is", T_OBJECT, offsetof(Chain, at), READONLY, NULL}, {NULL, 0, 0, 0, NULL}};
static PyGetSetDef chain_getset[] = {{"is_stopped", (getter)chain_is_stopped, NULL, NULL, NULL}, {NULL, NULL, NULL, NULL, NULL}};
static int chain_traverse(Chain *self, visitproc visit, void *arg) {
  Py_VISIT(Py_TYPE(self)); Py_VISIT(self->down); Py_VISIT(self->down_next); Py_VISIT(self->steps); Py_VISIT(self->at); Py_VISIT(self->emits); return 0;
}
static int chain_clear(Chain *self) {
  Py_CLEAR(self->down); Py_CLEAR(self->down_next); Py_CLEAR(self->steps); Py_CLEAR(self->at); Py_CLEAR(self->emits);
  return self->leaf = NULL, self->many = 0, 0;
}

/* Roots ------------------------------------------------------------------------------------------------------------------------*/

static int root_dispose(Root *root) {
  Leaf *leaf = root->alone;
  root->is_stopped = 1;
  if (leaf) {
    root->is_over = 1, root->alone = NULL, Py_INCREF(leaf);
    leave_alone(leaf), forget_waiting(leaf);
    Py_CLEAR(leaf->above); Py_DECREF(leaf);
  }
  if (root->is_over || !root->is_keyed) return 0;
  root->is_over = 1;
  struct cellar_command c = {.what = CELLAR_DISPOSE, .node = root->node};
  uint8_t status;
  int failed = command(root->core, &c, NULL, &status);
  return failed || !status || status == CELLAR_GONE ? failed : refused(status);
}
static int root_init(Root *self, PyObject *given, PyObject *Py_UNUSED(named)) {
  if (MANY(given) != 4) return PyErr_Format(PyExc_TypeError, "a core and three functions are wanted"), -1;
  PyObject *next = ITEM(given, 1);
  self->core = (Core *)new_of(ITEM(given, 0)), self->on_next = new_of(next), self->on_error = new_of(ITEM(given, 2)), self->on_completed = new_of(ITEM(given, 3));
  self->target = new_of(leaf_of(next) ? (PyObject *)leaf_of(next) : next);
  return 0;
}
static PyObject *root_disposed(Root *self, PyObject *Py_UNUSED(unused)) { return none_or_null(root_dispose(self)); }
/* The same as a call of the user's: from within its end what it held is released now. */
static PyObject *root_unsubscribe(Root *self, PyObject *Py_UNUSED(unused)) {
  if (!self->core || self->alone) return none_or_null(root_dispose(self));
  Outer outer;
  struct Mine *here = enter(&outer);
  int status = root_dispose(self);
  if (!status && self->ending == here && self->ending_at == here->telling.stack.depth) status = go_through(self->core, 1);
  return none_or_null(leave(here, &outer, status, 0));
}
static PyObject *root_next(Root *self, PyObject *value) { return self->is_stopped ? none_or_null(0) : CALL1(self->on_next, value); }
static PyObject *root_error(Root *self, PyObject *error) { return none_or_null(root_end(self, error)); }
static PyObject *root_completed(Root *self, PyObject *Py_UNUSED(unused)) { return none_or_null(root_end(self, NULL)); }
static PyObject *root_head(Root *self, void *Py_UNUSED(unused)) { return new_of(self->head ? self->head : Py_None); }
static int root_set_head(Root *self, PyObject *it, void *Py_UNUSED(unused)) {
  PyObject *target = Py_TYPE(it) == chain_type ? new_of(it) : PyObject_GetAttr(it, s_on_next), *head = self->head, *before = self->target;
  if (!target) return -1;
  self->head = new_of(it), self->target = target;
  return Py_XDECREF(head), Py_DECREF(before), 0;
}
static PyMethodDef root_methods[] = {
    {"on_next", (PyCFunction)root_next, METH_O, NULL}, {"on_error", (PyCFunction)root_error, METH_O, NULL},
    {"on_completed", (PyCFunction)root_completed, METH_NOARGS, NULL}, {"dispose", (PyCFunction)root_disposed, METH_NOARGS, NULL},
    {"unsubscribe", (PyCFunction)root_unsubscribe, METH_NOARGS, NULL}, {NULL, NULL, 0, NULL}};
static PyGetSetDef root_getset[] = {{"head", (getter)root_head, (setter)root_set_head, NULL, NULL}, {NULL, NULL, NULL, NULL, NULL}};
static PyMemberDef root_members[] = {{"is_stopped", T_BOOL, offsetof(Root, is_stopped), 0, NULL}, {"is_over", T_BOOL, offsetof(Root, is_over), 0, NULL}, {"is_told", T_BOOL, offsetof(Root, is_told), READONLY, NULL},
                                     {"number", T_ULONGLONG, offsetof(Root, node.number), READONLY, NULL},
                                     {"__weaklistoffset__", T_PYSSIZET, offsetof(Root, references), READONLY, NULL}, {NULL, 0, 0, 0, NULL}};
static int root_traverse(Root *self, visitproc visit, void *arg) {
  Py_VISIT(Py_TYPE(self)); Py_VISIT(self->core); Py_VISIT(self->head); Py_VISIT(self->target);
  Py_VISIT(self->on_next); Py_VISIT(self->on_error); Py_VISIT(self->on_completed);
  for (int i = 0; self->below && i < self->owed; i++) Py_VISIT(self->thing);
  return visit_below(self->below, visit, arg);
}
/* Nobody can tell it anything any more. */
static void root_finalize(PyObject *self) {
  PyObject *error = PyErr_Occurred() ? caught_one() : NULL;
  if (plain(root_unsubscribe((Root *)self, NULL))) PyErr_WriteUnraisable(self);
  if (error) raise_again(error);
}
static int root_clear(Root *self) {
  self->is_stopped = self->is_over = 1, self->alone = NULL;
  Py_CLEAR(self->core); Py_CLEAR(self->head); Py_CLEAR(self->target);
  Py_CLEAR(self->on_next); Py_CLEAR(self->on_error); Py_CLEAR(self->on_completed); return 0;
}

/* Subjects ---------------------------------------------------------------------------------------------------------------------*/

/* Each has a note of this kind in its lane, or where it is alone waiting, before anybody is told, so every observer hears one order. `all` are they with
 * what they are told by, or one leaf; `values` has NULL for whom nothing comes out of his functions. */
static int put_all(struct Mine *here, Core *core, PyObject *all, uint8_t what, PyObject *values) {
  struct cellar_stepped s = {.handed = 0};
  Turn outer = begin(here, core);
  int failed = 0, refusal = 0;
  for (Py_ssize_t i = 0; i < MANY(values); i++) {
    Leaf *leaf = leaf_at(all, i);
    PyObject *value = ITEM(values, i);
    if (!value || leaf->is_stopped) continue;
    uint8_t status = 0;
    if (what != CELLAR_NEXT) leave_alone(leaf);
    while (leaf->way == WAITS && !status) { /* it has entered the engine */
      struct Waiting first = first_of(leaf);
      status = put_there(here, leaf, first.what, first.value, &s);
      Py_DECREF(first.value);
    }
    if (!status) status = !leaf->way ? put_there(here, leaf, what, value, &s) : wait(here, leaf, what, value) ? CELLAR_NO_MEMORY : 0;
    if (status) refusal = status;
  }
  if (s.handed || core->many) failed = do_all(here, &s);
  for (Py_ssize_t i = 0; i < MANY(values); i++) failed = ITEM(values, i) ? tell_waiting(here, leaf_at(all, i), failed) : failed;
  core->turns--, failed = end_turn(here, &outer, failed);
  return failed || !refusal ? failed : refused(refusal);
}
static int tell_all(struct Mine *here, PyObject *all, uint8_t what, PyObject *value) {
  PyObject *values = PyTuple_New(MANY(all)), *it;
  Core *core = leaf_at(all, 0)->core;
  int status = values ? 0 : -1, is_one = 1;
  for (Py_ssize_t i = 0; !status && i < MANY(all); i++) { /* functions first */
    PyObject *up = ITEM(ITEM(all, i), 0);
    Leaf *leaf = leaf_at(all, i);
    if (leaf->core != core) is_one = 0;
    it = what != CELLAR_NEXT || up == (PyObject *)leaf ? new_of(value) : leaf->is_stopped ? NULL : through((Chain *)up, value, &status);
    if (it) PyTuple_SetItem(values, i, it);
  }
  if (!status && is_one) status = put_all(here, core, all, what, values);
  else /* an engine was exchanged meanwhile */
    for (Py_ssize_t i = 0; !status && i < MANY(all); i++)
      if (ITEM(values, i)) status = note(here, leaf_at(all, i), what, value);
  return values ? drop(values, status) : (void)0, status;
}
/* Those that have subscribed: a new reference. */
static PyObject *subscribers(Subject *self) {
  if (!self->all) {
    PyObject *list = PyDict_Values(self->ups);
    self->all = list ? PyList_AsTuple(list) : NULL, Py_XDECREF(list);
    if (!self->all) return NULL;
    PyObject *pair = MANY(self->all) ? ITEM(self->all, 0) : NULL;
    self->first = pair ? (Leaf *)ITEM(pair, 1) : NULL;
    self->one = pair && MANY(self->all) == 1 ? ITEM(pair, 0) : NULL;
  }
  return new_of(self->all);
}
static int remember(Subject *self, PyObject *kept) {
  if (!self->memory) return 0;
  if (PyList_Append(self->memory, kept)) return -1;
  Py_ssize_t more = self->limit < 0 ? 0 : PyList_Size(self->memory) - self->limit;
  return more > 0 ? PyList_SetSlice(self->memory, 0, more, NULL) : 0;
}
static int subject_tell(Subject *self, uint8_t what, PyObject *value) {
  PyObject *all = subscribers(self);
  if (!all) return -1;
  if (!self->first) return Py_DECREF(all), 0;
  Core *core = (Core *)new_of((PyObject *)self->first->core);
  Outer outer;
  struct Mine *here = enter(&outer);
  int is_one = self->one && what == CELLAR_NEXT;
  int status = !is_one ? tell_all(here, all, what, value) : self->first->is_stopped ? 0 : tell_up(here, self->one, value);
  status = leave(here, &outer, status, 0);
  return drop((PyObject *)core, status), drop(all, status), status;
}
/* One argument, by its place or as `value`. */
static PyObject *subject_next(Subject *self, PyObject *const *given, Py_ssize_t many, PyObject *names) {
  int is_named = !many && names && MANY(names) == 1 && !PyUnicode_CompareWithASCIIString(ITEM(names, 0), "value");
  if (!is_named && (many != 1 || names)) return PyErr_Format(PyExc_TypeError, "on_next() takes one argument, value");
  if (self->is_stopped) return self->is_disposed ? PyObject_CallMethodObjArgs((PyObject *)self, s_check, NULL) : none_or_null(0);
  return none_or_null(subject_tell(self, CELLAR_NEXT, given[0]));
}
/* An item for all, and what is remembered of it for who comes later. */
static PyObject *subject_next_kept(Subject *self, PyObject *const *given, Py_ssize_t many) {
  if (many != 2) return PyErr_Format(PyExc_TypeError, "an item and what is kept of it are wanted");
  return none_or_null(!self->is_stopped && (remember(self, given[1]) || subject_tell(self, CELLAR_NEXT, given[0])) ? -1 : 0);
}
/* The end for all: of an error that, else None. */
static PyObject *subject_end(Subject *self, PyObject *error) { return none_or_null(subject_tell(self, error == Py_None ? CELLAR_COMPLETE : CELLAR_ERROR, error)); }
/* A newcomer, who hears at once what is remembered, and from then on what is emitted. Where the subject has ended, only that: the end is
 * the caller's. */
static int enter_engine(Leaf *);
/* All that have subscribed are alone, or none is: else the engine would not know in which order they are told. */
static int is_joined(Subject *self, Leaf *leaf) {
  int is_alone = leaf->way & ALONE, status = 0;
  if (!PyDict_Size(self->ups)) self->is_alone = is_alone;
  if (self->is_alone == is_alone) return 0;
  if (is_alone) return enter_engine(leaf);
  PyObject *all = subscribers(self);
  self->is_alone = 0;
  for (Py_ssize_t i = 0; all && !status && i < MANY(all); i++) status = enter_engine((Leaf *)ITEM(ITEM(all, i), 1));
  if (all) drop(all, status);
  return all ? status : -1;
}
static PyObject *subject_join(Subject *self, PyObject *const *given, Py_ssize_t many) {
  if (many != 2 || Py_TYPE(given[1]) != leaf_type) return PyErr_Format(PyExc_TypeError, "what is told and its leaf are wanted");
  Leaf *leaf = (Leaf *)given[1];
  int status = 0, is_open = !self->is_stopped;
  if (is_open && !leaf->is_stopped) {
    if (is_joined(self, leaf)) return NULL;
    PyObject *both = PyTuple_Pack(2, given[0], given[1]);
    if (!both) return NULL;
    Py_CLEAR(self->all);
    status = PyDict_SetItem(self->ups, (PyObject *)leaf, both), Py_DECREF(both);
    if (status) return NULL;
    leaf->owner = self;
  }
  PyObject *items = self->memory ? PyList_AsTuple(self->memory) : PyTuple_New(0), *values = items ? PyTuple_New(MANY(items)) : NULL;
  if (!values) status = -1;
  for (Py_ssize_t i = 0; !status && i < MANY(items); i++)
    if (given[0] != given[1]) status = tell_up(here_is(), given[0], ITEM(ITEM(items, i), 1));
    else PyTuple_SetItem(values, i, new_of(ITEM(ITEM(items, i), 1)));
  if (!status && given[0] == given[1] && MANY(items)) status = put_all(here_is(), leaf->core, given[1], CELLAR_NEXT, values); /* into its lane before anybody can emit */
  Py_XDECREF(items), Py_XDECREF(values);
  return status ? NULL : PyBool_FromLong(is_open);
}
static PyObject *subject_forget(Subject *self, PyObject *Py_UNUSED(unused)) {
  PyObject *key, *value;
  Py_ssize_t at = 0;
  while (self->ups && PyDict_Next(self->ups, &at, &key, &value))
    if (Py_TYPE(key) == leaf_type) ((Leaf *)key)->owner = NULL;
  Py_CLEAR(self->all);
  return self->ups ? PyDict_Clear(self->ups) : (void)0, none_or_null(0);
}
static int subject_init(PyObject *self, PyObject *given, PyObject *named) {
  if (!MANY(given) && !(named && PyDict_Size(named))) return 0;
  return PyErr_Format(PyExc_TypeError, "%R takes no arguments", Py_TYPE(self)), -1;
}
static PyObject *subject_new(PyTypeObject *type, PyObject *Py_UNUSED(given), PyObject *Py_UNUSED(named)) {
  Subject *self = (Subject *)PyType_GenericAlloc(type, 0);
  if (self && (self->limit = -1, !(self->ups = PyDict_New()))) Py_CLEAR(self);
  return (PyObject *)self;
}
static PyMethodDef subject_methods[] = {
    {"on_next", FAST(subject_next), METH_FASTCALL | METH_KEYWORDS, "on_next($self, value)\n--\n\nTells the item to each that subscribed."},
    {"_on_next_core", FAST(subject_next), METH_FASTCALL | METH_KEYWORDS, NULL}, {"_next_kept", FAST(subject_next_kept), METH_FASTCALL, NULL},
    {"_end", (PyCFunction)subject_end, METH_O, NULL}, {"_join", FAST(subject_join), METH_FASTCALL, NULL},
    {"_forget", (PyCFunction)subject_forget, METH_NOARGS, NULL}, {NULL, NULL, 0, NULL}};
static PyMemberDef subject_members[] = {
    {"_ups", T_OBJECT, offsetof(Subject, ups), READONLY, NULL}, {"_memory", T_OBJECT, offsetof(Subject, memory), 0, NULL}, {"exception", T_OBJECT, offsetof(Subject, exception), 0, NULL},
    {"_limit", T_PYSSIZET, offsetof(Subject, limit), 0, NULL}, {"is_stopped", T_BOOL, offsetof(Subject, is_stopped), 0, NULL},
    {"is_disposed", T_BOOL, offsetof(Subject, is_disposed), 0, NULL}, {NULL, 0, 0, 0, NULL}};
static int subject_traverse(Subject *self, visitproc visit, void *arg) {
  Py_VISIT(Py_TYPE(self)); Py_VISIT(self->ups); Py_VISIT(self->all); Py_VISIT(self->memory); Py_VISIT(self->exception); return 0;
}
static int subject_clear(Subject *self) {
  Py_DECREF(subject_forget(self, NULL));
  Py_CLEAR(self->ups); Py_CLEAR(self->all); Py_CLEAR(self->memory); Py_CLEAR(self->exception); return 0;
}
/* Nobody can tell its subscribers anything any more: those that hear of nothing else go. */
static void subject_finalize(Subject *self) {
  if (!self->ups || !PyDict_Size(self->ups)) return;
  PyObject *error = PyErr_Occurred() ? caught_one() : NULL, *all = subscribers(self), *root;
  for (Py_ssize_t i = 0; all && i < MANY(all); i++)
    if ((root = alone(leaf_at(all, i)))) root_finalize(new_of(root)), Py_DECREF(root);
  Py_XDECREF(all);
  if (error) raise_again(error);
}

/* Commands of the Python side --------------------------------------------------------------------------------------------------*/

static int node_of(PyObject *it, struct cellar_node *to) {
  if (it == Py_None) return 1;
  if (Py_TYPE(it) == key_type) *to = ((Key *)it)->node;
  else if (Py_TYPE(it) == leaf_type) *to = ((Leaf *)it)->node;
  else if (is_a(it, root_type)) *to = ((Root *)it)->node;
  else return PyErr_Format(PyExc_TypeError, "a node is wanted"), 0;
  return 1;
}
/* A command as Python has it: its first eight bytes as a number, the node that it is about, and more, so many in all. */
static int asked_for(struct cellar_command *c, PyObject *const *given, Py_ssize_t many, Py_ssize_t wanted) {
  uint64_t what;
  if (many != wanted) return PyErr_Format(PyExc_TypeError, "%zd arguments are wanted", wanted), 0;
  if (!number(given[0], &what)) return 0;
  memcpy(c, &what, 8);
  return node_of(given[1], &c->node);
}
static Key *new_key(void) { return (Key *)PyType_GenericAlloc(key_type, 0); }
/* How often the engine gives back the word of what is opened. */
static uint64_t roles_of(const struct cellar_command *c) {
  uint64_t wishes = c->flags & CELLAR_WISHES ? 1 : 0;
  if (c->what == CELLAR_CONNECT) return wishes;
  return wishes + (c->place == CELLAR_ROOT) + (c->what == CELLAR_OPEN && (c->kind == CELLAR_FLAT || c->kind == CELLAR_SWITCH));
}
/* Makes an opening, for `thing`, and does what comes of it: the keys, if they are wanted, and a share that is connected know what was opened
 * before anything is told. Where `is_exchange` it stands where something else did: whatever is projected from now on comes behind it, and need not
 * wait. */
typedef struct {
  struct cellar_command c;
  PyObject *thing, *share, *first; /* first: an item of what is opened, in its lane before anything is told; or NULL */
  Key *node, *other; /* other: of a connection that is asked for */
  struct cellar_node opened;
  int is_exchange, is_connected;
  uint8_t status;
} Opening;
static int opened(Core *core, Opening *it) {
  struct Mine *here = here_is();
  struct cellar_command *c = &it->c;
  struct cellar_stepped s;
  PyObject *thing = it->thing;
  uint64_t roles = thing == Py_None ? 0 : roles_of(c);
  it->status = CELLAR_NO_MEMORY;
  if (c->flags & CELLAR_WISHES && reserve(core)) return -1;
  if (roles) c->user = (uintptr_t)thing, keep(core, thing, roles);
  Turn outer = begin(here, core);
  if (it->is_exchange && here->releasing.core == core) calls.pass(&core->engine, &here->turn.stack, here->releasing.stack.depth, 1); /* the rest first */
  it->status = make(here, c, &s);
  if (it->status) {
    for (; roles; roles--) let_go(core, thing);
    return end(here, &outer, &s);
  }
  if (c->flags & CELLAR_WISHES) core->wishes++;
  if (it->node) it->node->node = s.node;
  if (it->other) it->other->node = s.other;
  it->is_connected = s.is_connected && c->what == CELLAR_OPEN, it->opened = s.other, c->hub = s.hub;
  if (thing != Py_None) {
    PyObject *hears = ITEM(thing, 0), *close = ITEM(thing, 1);
    int is_root = c->place == CELLAR_ROOT && c->what != CELLAR_CONNECT;
    if (is_root) ((Root *)hears)->node = s.node, ((Root *)hears)->is_keyed = 1, ((Root *)hears)->thing = thing, ((Root *)hears)->owed = 1;
    if (Py_TYPE(close) == leaf_type) {
      ((Leaf *)close)->node = s.node, ((Leaf *)close)->thing = thing, ((Leaf *)close)->owed = (int)roles - is_root;
      if (((Leaf *)close)->above) put_first((Leaf *)close, below_of(((Leaf *)close)->above));
    }
  }
  if (it->share && PyObject_SetAttr(it->share, s_connection, (PyObject *)it->other)) return core->turns--, stop(here, core), here->turn = outer, -1;
  if (it->is_exchange && here->telling.core == core) let_pass(here);
  uint8_t status = it->first ? put_there(here, (Leaf *)ITEM(thing, 1), CELLAR_NEXT, it->first, &s) : 0;
  int failed = end(here, &outer, &s);
  return failed || !status ? failed : refused(status);
}
/* what, the node above, (root, what closes, what projects) or None, a release or None, whether it takes the place of something, and the first item of a
 * leaf, if there is one: the key. */
static PyObject *core_open(Core *self, PyObject *const *given, Py_ssize_t many) {
  Opening it = {.share = NULL};
  if (!asked_for(&it.c, given, many, many == 6 ? 6 : 5) || !(it.node = new_key())) return NULL;
  it.thing = given[2], it.is_exchange = given[4] == Py_True, it.first = many == 6 ? given[5] : NULL;
  if (given[3] != Py_None) it.c.value = (uintptr_t)given[3], keep(self, given[3], 1);
  int failed = opened(self, &it);
  if (it.status && given[3] != Py_None) let_go(self, given[3]);
  if (failed || (it.status && refused(it.status))) Py_CLEAR(it.node);
  return (PyObject *)it.node;
}
/* The answer is in the book, or released at once; its place in the tuple was made before. Where something has `failed` that is raised. */
static int held(Core *core, Opening *it, PyObject *tag, int failed) {
  PyObject *error = failed ? caught_one() : NULL;
  it->c.value = (uintptr_t)tag, keep(core, tag, 1);
  failed = it->thing ? opened(core, it) : command(core, &it->c, NULL, &it->status);
  if (failed && error) PyErr_Clear();
  else if (failed) error = caught_one();
  failed = it->status && release(tag) ? caught(me()) : 0;
  if (it->status) let_go(core, tag);
  if (!error) return failed;
  return failed ? Py_DECREF(error), -1 : raise_again(error);
}
/* what, the node above, (root, None, None) or None, a factory: calls it, and opens a node that holds its answer, with nothing between.
 * Answers the key and the resource. */
static PyObject *core_using(Core *self, PyObject *const *given, Py_ssize_t many) {
  Opening it = {.share = NULL};
  if (!asked_for(&it.c, given, many, 4)) return NULL;
  it.thing = given[2], it.node = new_key();
  PyObject *tag = it.node ? PyTuple_New(1) : NULL, *answer = tag ? PyTuple_New(2) : NULL, *resource = answer ? CALL0(given[3]) : NULL;
  if (!resource) return Py_XDECREF(it.node), Py_XDECREF(tag), Py_XDECREF(answer), NULL;
  PyTuple_SetItem(tag, 0, new_of(resource)), PyTuple_SetItem(answer, 1, resource), PyTuple_SetItem(answer, 0, (PyObject *)it.node);
  if (resource == Py_None) it.c.what = CELLAR_OPEN, it.c.kind = CELLAR_PASS;
  int failed = resource == Py_None ? opened(self, &it) : held(self, &it, tag, 0);
  Py_DECREF(tag);
  if (failed || (it.status && refused(it.status))) Py_CLEAR(answer);
  return answer;
}
/* One alone enters the engine. */
static int enter_engine(Leaf *leaf) {
  Opening it = {.c = {.what = CELLAR_OPEN, .flags = CELLAR_WISHES}};
  if (!(leaf->way & ALONE) || !leaf->at) return 0;
  if (!(it.thing = PyTuple_Pack(3, leaf->above, leaf, Py_None))) return -1;
  Root *root = (Root *)leaf->above;
  take_out(leaf), leaf->way &= ~ALONE, root->alone = NULL;
  int failed = opened(leaf->core, &it);
  if (it.status) leaf->way |= ALONE, root->alone = leaf, put_first(leaf, &leaf->core->alone);
  drop(it.thing, failed);
  return failed || !it.status ? failed : refused(it.status);
}
/* A node, a function and its arguments: calls it, and lets the node hold the answer, with nothing between: something with `dispose`, a
 * function, or None. Where the node is closed it is released at once. */
static PyObject *core_hold(Core *self, PyObject *const *given, Py_ssize_t many) {
  Opening it = {.c = {.what = CELLAR_HOLD}};
  PyObject *node = many ? *given : Py_None, *tag = PyTuple_New(1);
  if (!tag || !node_of(node, &it.c.node)) return Py_XDECREF(tag), NULL;
  PyObject *resource = call_first(given + 1, many - 1);
  if (!resource || resource == Py_None) return Py_DECREF(tag), resource;
  if (PyObject_HasAttr(resource, s_dispose)) PyTuple_SetItem(tag, 0, new_of(resource));
  else Py_DECREF(tag), tag = new_of(resource);
  int failed = Py_TYPE(node) == leaf_type ? enter_engine((Leaf *)node) : 0;
  node_of(node, &it.c.node);
  failed = held(self, &it, tag, failed), drop(tag, failed);
  if (failed || (it.status && it.status != CELLAR_GONE && refused(it.status))) Py_CLEAR(resource);
  return resource;
}
/* what, the node above, (root, what closes, None) or None, the share's word, its hub, the share if it is to be connected, whether it takes the
 * place of something: (status, key, connection, hub). */
static PyObject *core_share(Core *self, PyObject *const *given, Py_ssize_t many) {
  Opening it = {.status = 0};
  PyObject *answer = NULL;
  if (!asked_for(&it.c, given, many, 7) || !number(given[3], &it.c.value) || !number(given[4], &it.c.hub)) return NULL;
  it.thing = given[2], it.share = given[5] == Py_None ? NULL : given[5], it.is_exchange = given[6] == Py_True;
  it.node = new_key(), it.other = it.node && it.share ? new_key() : NULL;
  if (it.node && (it.other || !it.share) && !opened(self, &it)) {
    if (it.is_connected && (it.other = new_key())) it.other->node = it.opened;
    answer = Py_BuildValue("(iOOK)", it.status, it.node, it.other ? (PyObject *)it.other : Py_None, it.c.hub);
  }
  return Py_XDECREF(it.node), Py_XDECREF(it.other), answer;
}
/* what, the node, a value or None, or (a call,) that stands in the node's lane: the status. */
static PyObject *core_do(Core *self, PyObject *const *given, Py_ssize_t many) {
  struct cellar_command c = {0};
  uint8_t status;
  if (!asked_for(&c, given, many, 3)) return NULL;
  PyObject *value = given[2] == Py_None ? NULL : given[2], *call = c.what == CELLAR_PUT ? value : NULL;
  if (call) c.user = (uintptr_t)call, keep(self, call, 1);
  else c.value = (uintptr_t)value;
  int failed = command(self, &c, call ? NULL : value, &status);
  if (call && status) let_go(self, call);
  return failed ? NULL : PyLong_FromLong(status);
}
/* A turn of no command: `passes` where what is told counts as told before, so that what stands behind it is this turn's. */
static int go_through(Core *core, int passes) {
  struct Mine *here = here_is();
  struct cellar_stepped s = {.handed = 0};
  if (core->generation != generation) return 0;
  Turn outer = begin(here, core);
  if (passes && here->telling.stack.by) here->turn.stack.begun = here->telling.stack.begun, calls.pass(&core->engine, &here->turn.stack, here->telling.stack.depth, 1);
  calls.next(&core->engine, &here->turn.stack, &s);
  return end(here, &outer, &s);
}
/* Does what is to be done, also what interrupted calls left. */
static PyObject *core_serve_left(Core *self, PyObject *Py_UNUSED(unused)) {
  Outer outer;
  struct Mine *here = enter(&outer);
  return none_or_null(leave(here, &outer, go_through(self, 0), 0));
}
/* A leaf for somebody who feeds it, and of a root, or None, one alone. */
static PyObject *core_leaf(Core *self, PyObject *root) {
  if (root != Py_None && (!is_a(root, root_type) || self->generation != generation)) return none_or_null(refused(CELLAR_GONE));
  Leaf *leaf = (Leaf *)PyType_GenericAlloc(leaf_type, 0);
  if (!leaf) return NULL;
  leaf->core = (Core *)new_of((PyObject *)self), leaf->is_fed = 1, leaf->node.slot = leaf->node.number = UINT64_MAX;
  if (root == Py_None) return (PyObject *)leaf;
  leaf->above = new_of(root), leaf->way = ALONE, ((Root *)root)->alone = leaf;
  return put_first(leaf, &self->alone), (PyObject *)leaf;
}
/* Closes those that are, the oldest first, each behind what waits for it: that is heard, as of the engine. */
static PyObject *core_shut_alone(Core *self, PyObject *Py_UNUSED(unused)) {
  PyObject *all = PyList_New(0);
  int status = all ? 0 : -1;
  for (Leaf *it = self->generation == generation ? self->alone : NULL; it && !status; it = it->next) status = PyList_Append(all, (PyObject *)it);
  if (!status) status = PyList_Reverse(all);
  for (Py_ssize_t i = 0; !status && i < PyList_Size(all); i++) {
    Leaf *leaf = (Leaf *)PyList_GetItem(all, i);
    if (leaf->way & ALONE) status = note(here_is(), leaf, CELLAR_SHUT, Py_None);
  }
  if (all) drop(all, status);
  return none_or_null(status);
}
/* Where the engine is, for the calls that ctypes makes on it as well: none is on the way of an item. */
static PyObject *core_address(Core *self, void *Py_UNUSED(unused)) { return PyLong_FromVoidPtr(&self->engine); }
static PyObject *core_new(PyTypeObject *type, PyObject *given, PyObject *Py_UNUSED(named)) {
  unsigned long events = 0;
  if (!PyArg_ParseTuple(given, "|k", &events)) return NULL;
  Core *self = (Core *)PyType_GenericAlloc(type, 0);
  if (!self) return NULL;
  self->generation = generation;
  if (calls.begin(&self->engine, (uint32_t)events)) return Py_DECREF(self), PyErr_NoMemory();
  return (PyObject *)self;
}
static void core_dealloc(Core *self) {
  PyTypeObject *type = Py_TYPE(self);
  calls.drop(&self->engine);
  PyMem_Free(self->closed);
  ((freefunc)PyType_GetSlot(type, Py_tp_free))(self);
  Py_DECREF(type);
}
static PyMethodDef core_methods[] = {
    {"open", FAST(core_open), METH_FASTCALL, NULL}, {"using", FAST(core_using), METH_FASTCALL, NULL}, {"hold", FAST(core_hold), METH_FASTCALL, NULL},
    {"share", FAST(core_share), METH_FASTCALL, NULL}, {"do", FAST(core_do), METH_FASTCALL, NULL}, {"shut_alone", (PyCFunction)core_shut_alone, METH_NOARGS, NULL},
    {"serve_left", (PyCFunction)core_serve_left, METH_NOARGS, NULL}, {"leaf", (PyCFunction)core_leaf, METH_O, NULL}, {NULL, NULL, 0, NULL}};
static PyGetSetDef core_getset[] = {{"address", (getter)core_address, NULL, NULL, NULL}, {NULL, NULL, NULL, NULL, NULL}};
static PyMemberDef core_members[] = {{"kept", T_LONGLONG, offsetof(Core, kept), READONLY, NULL}, {"leaves_out", T_BOOL, offsetof(Core, leaves_out), 0, NULL}, {"many_alone", T_LONGLONG, offsetof(Core, many_alone), READONLY, NULL},
                                     {"waiting", T_LONGLONG, offsetof(Core, waiting), READONLY, NULL}, {NULL, 0, 0, 0, NULL}};

/* This thread ------------------------------------------------------------------------------------------------------------------*/

/* Calls, and behind that does what sources put off meanwhile; unless a call further out does, where this is not to be apart from that. */
static PyObject *trampolined(PyObject *const *given, Py_ssize_t many, int is_apart) {
  PyObject *before = mine.trampoline, *queue = before && !is_apart ? NULL : PyList_New(0), *answer;
  if (!queue) return before && !is_apart ? call_first(given, many) : NULL;
  mine.trampoline = queue, answer = call_first(given, many);
  while (answer && is_some(queue))
    if (go_on(queue)) Py_CLEAR(answer);
  return mine.trampoline = before, Py_DECREF(queue), answer;
}
static PyObject *module_trampolined(PyObject *Py_UNUSED(module), PyObject *const *given, Py_ssize_t many) { return trampolined(given, many, 0); }
static PyObject *apart(PyObject *Py_UNUSED(module), PyObject *const *given, Py_ssize_t many) { return trampolined(given, many, 1); }
static PyObject *within(PyObject *const *given, Py_ssize_t many, Root *root) {
  Outer outer;
  struct Mine *here = enter(&outer);
  PyObject *answer = root ? trampolined(given, many, 0) : call_first(given, many);
  if (!answer && root) dispose_and_go_on(root);
  if (leave(here, &outer, answer ? 0 : -1, root && !root->is_over)) Py_CLEAR(answer);
  return answer;
}
/* A root, a function and its arguments, which opens it: where that is interrupted nothing stays open. What was raised meanwhile is raised
 * where the subscription is over, and else heard by the hook, so that the caller gets his disposable. */
static PyObject *subscribe(PyObject *Py_UNUSED(module), PyObject *const *given, Py_ssize_t many) {
  if (!many || !is_a(*given, root_type)) return PyErr_Format(PyExc_TypeError, "a root is wanted");
  return within(given + 1, many - 1, (Root *)*given);
}
/* A call of the user's: what observers and releases raise meanwhile is raised at its end. */
static PyObject *module_call(PyObject *Py_UNUSED(module), PyObject *const *given, Py_ssize_t many) { return within(given, many, NULL); }
/* Calls: what sources put off meanwhile comes behind what the lane that is served tells now, unless a call further out goes on with it. */
static PyObject *behind_the_lane(PyObject *const *given, Py_ssize_t many, int lets_go) {
  if (mine.trampoline) return call_first(given, many);
  if (!mine.telling.core || (!mine.put_off && !(mine.put_off = PyList_New(0)))) return trampolined(given, many, 0);
  mine.trampoline = mine.put_off, mine.lets_go |= lets_go;
  PyObject *answer = call_first(given, many);
  return mine.trampoline = NULL, answer;
}
/* What is projected is opened. */
static PyObject *projected(PyObject *Py_UNUSED(module), PyObject *const *given, Py_ssize_t many) { return behind_the_lane(given, many, 0); }
/* What an operator subscribes to as its lane is served emits into that lane: so that it is told at once, the lane is let go for it. */
static PyObject *fed(PyObject *Py_UNUSED(module), PyObject *const *given, Py_ssize_t many) { return behind_the_lane(given, many, 1); }
static PyObject *put_off(PyObject *Py_UNUSED(module), PyObject *call) {
  if (!mine.trampoline) Py_RETURN_FALSE;
  if (PyList_Append(mine.trampoline, call)) return NULL;
  Py_RETURN_TRUE;
}
/* What this thread puts off, if somebody goes on with it. */
static PyObject *queue(PyObject *Py_UNUSED(module), PyObject *Py_UNUSED(unused)) { return new_of(mine.trampoline ? mine.trampoline : Py_None); }
/* Something was raised by what is none of a call's own. */
static PyObject *raised(PyObject *Py_UNUSED(module), PyObject *error) { return raise_again(new_of(error)), none_or_null(caught(me())); }
/* Calls this behind all that the turns under way come to, of the innermost call of the package: so what they release is released. */
static PyObject *behind(PyObject *Py_UNUSED(module), PyObject *call) {
  if (mine.turn.stack.depth == mine.floor) return none_or_null(plain(CALL0(call)));
  PyObject *it = mine.trampoline ? PyTuple_Pack(1, call) : new_of(call);
  if (!it || (!mine.behind && !(mine.behind = PyList_New(0)))) return NULL;
  int status = PyList_Append(mine.behind, it);
  return Py_DECREF(it), none_or_null(status);
}
/* Tells what stands behind what is told to a root: of one that has ended, what it held. */
static PyObject *finish(PyObject *Py_UNUSED(module), PyObject *root) {
  return none_or_null(mine.telling.core == ((Root *)root)->core ? go_through(mine.telling.core, 1) : 0);
}
static PyObject *forked(PyObject *Py_UNUSED(module), PyObject *Py_UNUSED(unused)) { return generation++, none_or_null(0); }
/* What is told, its leaf, and an iterator: its items, until the leaf is closed. Whether it came to its end. */
static PyObject *pull(PyObject *Py_UNUSED(module), PyObject *const *given, Py_ssize_t many) {
  if (many != 3 || Py_TYPE(given[1]) != leaf_type) return PyErr_Format(PyExc_TypeError, "what is told, its leaf and an iterator are wanted");
  Leaf *leaf = (Leaf *)given[1];
  struct Mine *here = here_is();
  for (unsigned count = 1; !leaf->is_stopped; count++) {
    PyObject *value = PyIter_Next(given[2]);
    if (!value) return PyErr_Occurred() ? NULL : new_of(Py_True);
    int status = leaf->is_stopped ? 0 : tell_up(here, given[0], value);
    drop(value, status);
    if (status || PyErr_CheckSignals()) return NULL;
    if (!(count & 4095)) PyEval_RestoreThread(PyEval_SaveThread()); /* where neither side is Python, no other thread would come */
  }
  Py_RETURN_FALSE;
}

/* The module -------------------------------------------------------------------------------------------------------------------*/

static PyObject *bind(PyObject *Py_UNUSED(module), PyObject *given) {
  const char *addresses;
  Py_ssize_t size;
  if (!PyArg_ParseTuple(given, "y#OO", &addresses, &size, &refuse, &unhandled)) return NULL;
  if (size != sizeof calls) return PyErr_Format(PyExc_ImportError, "the extension is of another version than this package");
  memcpy(&calls, addresses, sizeof calls);
  Py_INCREF(refuse), Py_INCREF(unhandled);
  Py_RETURN_NONE;
}
#define DEALLOC(Name, clear, more) \
  static void Name##_dealloc(Name *self) { PyTypeObject *type = Py_TYPE(self); PyObject_GC_UnTrack(self); clear(self); more; ((freefunc)PyType_GetSlot(type, Py_tp_free))(self); Py_DECREF(type); }
DEALLOC(Subject, subject_clear, )
DEALLOC(Leaf, leaf_clear, )
DEALLOC(Root, root_clear, PyObject_ClearWeakRefs((PyObject *)self))
DEALLOC(Chain, chain_clear, PyMem_Free(self->kinds))
#define COLLECTED(Name, name) {Py_tp_dealloc, Name##_dealloc}, {Py_tp_methods, name##_methods}, {Py_tp_traverse, name##_traverse}, {Py_tp_clear, name##_clear}
static PyType_Slot core_slots[] = {{Py_tp_new, core_new}, {Py_tp_dealloc, core_dealloc}, {Py_tp_methods, core_methods}, {Py_tp_getset, core_getset}, {Py_tp_members, core_members}, {0, NULL}};
static PyMemberDef key_members[] = {{"number", T_ULONGLONG, offsetof(Key, node.number), READONLY, NULL}, {NULL, 0, 0, 0, NULL}};
static PyType_Slot key_slots[] = {{Py_tp_members, key_members}, {0, NULL}};
static PyType_Slot root_slots[] = {COLLECTED(Root, root), {Py_tp_finalize, root_finalize}, {Py_tp_init, root_init}, {Py_tp_getset, root_getset}, {Py_tp_members, root_members}, {0, NULL}};
static PyType_Slot leaf_slots[] = {COLLECTED(Leaf, leaf), {Py_tp_init, leaf_init}, {Py_tp_members, leaf_members}, {0, NULL}};
static PyType_Slot chain_slots[] = {COLLECTED(Chain, chain), {Py_tp_init, chain_init}, {Py_tp_getset, chain_getset}, {Py_tp_members, chain_members}, {0, NULL}};
static PyType_Slot subject_slots[] = {COLLECTED(Subject, subject), {Py_tp_new, subject_new}, {Py_tp_init, subject_init}, {Py_tp_finalize, subject_finalize}, {Py_tp_members, subject_members}, {0, NULL}};
#define GC (Py_TPFLAGS_DEFAULT | Py_TPFLAGS_HAVE_GC)
static PyType_Spec core_spec = {"cellarcliff._engine.Core", sizeof(Core), 0, Py_TPFLAGS_DEFAULT, core_slots};
static PyType_Spec key_spec = {"cellarcliff._engine.Key", sizeof(Key), 0, Py_TPFLAGS_DEFAULT, key_slots};
static PyType_Spec root_spec = {"cellarcliff._engine.Root", sizeof(Root), 0, GC | Py_TPFLAGS_BASETYPE, root_slots};
static PyType_Spec leaf_spec = {"cellarcliff._engine.Leaf", sizeof(Leaf), 0, GC, leaf_slots};
static PyType_Spec chain_spec = {"cellarcliff._engine.Chain", sizeof(Chain), 0, GC, chain_slots};
static PyType_Spec subject_spec = {"cellarcliff._engine.Subject", sizeof(Subject), 0, GC | Py_TPFLAGS_BASETYPE, subject_slots};

static PyMethodDef functions[] = {
    {"bind", bind, METH_VARARGS, NULL}, {"pull", FAST(pull), METH_FASTCALL, NULL}, {"subscribe", FAST(subscribe), METH_FASTCALL, NULL},
    {"call", FAST(module_call), METH_FASTCALL, NULL}, {"trampolined", FAST(module_trampolined), METH_FASTCALL, NULL}, {"projected", FAST(projected), METH_FASTCALL, NULL},
    {"fed", FAST(fed), METH_FASTCALL, NULL}, {"apart", FAST(apart), METH_FASTCALL, NULL}, {"put_off", put_off, METH_O, NULL}, {"queue", queue, METH_NOARGS, NULL},
    {"raised", raised, METH_O, NULL}, {"behind", behind, METH_O, NULL}, {"finish", finish, METH_O, NULL}, {"forked", forked, METH_NOARGS, NULL}, {NULL, NULL, 0, NULL}};
static struct PyModuleDef definition = {PyModuleDef_HEAD_INIT, "_engine", NULL, -1, functions, NULL, NULL, NULL, NULL};

PyMODINIT_FUNC PyInit__engine(void) {
  if (PyInterpreterState_GetID(PyInterpreterState_Get()) != 0)
    return PyErr_Format(PyExc_ImportError, "cellarcliff.rx is of the main interpreter alone: it has one engine for the process");
  PyObject *module = PyModule_Create(&definition);
  struct { const char *name; PyType_Spec *spec; PyTypeObject **to; } all[] = {
      {"Core", &core_spec, NULL}, {"Key", &key_spec, &key_type}, {"Root", &root_spec, &root_type}, {"Leaf", &leaf_spec, &leaf_type},
      {"Chain", &chain_spec, &chain_type}, {"Subject", &subject_spec, &subject_type}};
  if (!module || !(left = PyList_New(0))) return NULL;
  for (size_t i = 0; i < sizeof all / sizeof *all; i++) {
    PyObject *type = PyType_FromSpec(all[i].spec);
    if (!type) return NULL;
    Py_INCREF(type);
    if (all[i].to) *all[i].to = (PyTypeObject *)type;
    if (PyModule_AddObject(module, all[i].name, type)) return NULL;
  }
  struct { const char *text; PyObject **to; } names[] = {
      {"on_next", &s_on_next}, {"on_error", &s_on_error}, {"on_completed", &s_on_completed}, {"dispose", &s_dispose}, {"check_disposed", &s_check},
      {"connection", &s_connection}};
  for (size_t i = 0; i < sizeof names / sizeof *names; i++)
    if (!(*names[i].to = PyUnicode_InternFromString(names[i].text))) return NULL;
  return module;
}
