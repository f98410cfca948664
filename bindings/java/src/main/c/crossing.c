/* The calls of an engine for the JVM: each is one crossing. What a step answers stands in the desk's own memory, which Java reads through
 * one direct buffer under the lock under which it called. */
#define _GNU_SOURCE
#include <jni.h>
#include <pthread.h>
#include <stdlib.h>

#include "cellarcliff.h"

extern int malloc_trim(size_t) __attribute__((weak));

enum { WORDS = 64, NOTED = 16, NO_STACK = 255, BOTH = 1 << 12 };

/* What stands above a depth: others are let into the lane of what the call further out does; the item of what is opened comes with it; a leaf
 * below it, whose word stands in the place of the hub; the call further out goes on behind it. */
#define LETS_IN (INT64_C(1) << 61)
#define WITH_ITEM (INT64_C(1) << 60)
#define WITH_LEAF (INT64_C(1) << 59)
#define GOES_ON (INT64_C(1) << 58)
#define ABOVE (LETS_IN | WITH_ITEM | WITH_LEAF | GOES_ON)

/* What Java reads begins with `step`; Native.java has the places. */
struct desk {
  struct cellar engine;
  struct cellar_stepped step;
  struct cellar_totals totals;
  uint64_t words[WORDS];
  /* What was handed out that tells nobody, and is done: the words, and in four bits each the kinds; then the ticket of the last. */
  uint64_t noted[NOTED], kinds, begun;
};
_Static_assert(offsetof(struct desk, totals) - offsetof(struct desk, step) == 192, "Native.java");
_Static_assert(offsetof(struct desk, words) - offsetof(struct desk, step) == 256, "Native.java");

/* Whether the stack has so many kilobytes left. A command is not made where the lines behind it might find no stack: what it came to would
 * be lost. The JVM keeps up to 96 at the end for itself. */
static int has_stack(size_t kilobytes) {
  static _Thread_local char *end __attribute__((tls_model("initial-exec")));
  char here;
  if (!end) {
    pthread_attr_t attributes;
    void *lowest;
    size_t size;
    if (pthread_getattr_np(pthread_self(), &attributes)) return 1;
    if (!pthread_attr_getstack(&attributes, &lowest, &size)) end = lowest;
    pthread_attr_destroy(&attributes);
    if (!end) return 1;
  }
  return (size_t)(&here - end) > kilobytes << 10;
}

/* What ends needs less than what begins, and what closes less still, so that whoever could begin something can end it. */
static size_t needed(uint8_t what) {
  return what <= CELLAR_NEXT || what == CELLAR_CONNECT ? 160 : what <= CELLAR_ERROR ? 144 : 128;
}

/* What tells nobody is noted: that a root is gone, that nothing more is projected; and a release of the tree that is disposed of, if the caller names
 * one, which the caller does later. What comes behind is handed out. */
static jlong note(struct desk *desk, struct cellar_stack *stack, uint64_t around) {
  jlong many = 0;
  struct cellar_stepped next, *step = &desk->step;
  for (desk->kinds = 0; step->handed && many < NOTED; many++) {
    uint32_t kind = step->effect.kind;
    if (kind != CELLAR_E_GONE && kind != CELLAR_E_MERGED && (kind != CELLAR_E_RELEASE || (step->effect.user >> 32) + 1 != around)) break;
    desk->noted[many] = step->effect.user;
    desk->kinds |= (uint64_t)kind << 4 * many;
    stack->begun = desk->begun = step->ticket;
    cellar_next(&desk->engine, stack, &next);
    if (!(step->handed = next.handed)) continue;
    step->own = next.own;
    step->ticket = next.ticket;
    step->effect = next.effect;
  }
  return many;
}

/* The status, and above it whether there is an effect, whether it is the command's own item, which then needs not be kept, whether it carries
 * a value, whether there are closings or values to keep, its kind, and how much was noted before it. */
static jlong told(struct desk *desk, struct cellar_stack *stack, uint8_t status, jlong around) {
  const struct cellar_stepped *step = &desk->step;
  jlong noted = step->handed ? note(desk, stack, (uint64_t)around) : 0;
  return status | noted << 24 | (jlong)step->handed << 8 | (jlong)step->own << 9 | (jlong)(step->effect.carries != 0) << 10 |
         (jlong)(step->closed != 0 || step->copies > step->own) << 11 | (jlong)step->effect.kind << 16;
}

#define STATIC JNIEnv *env, jclass class
#define UNUSED (void)env, (void)class

static struct cellar_stack stack_of(jlong by, jlong depth, jlong begun) {
  return (struct cellar_stack){.by = (uint64_t)by, .depth = (uint64_t)(depth & ~ABOVE), .begun = (uint64_t)begun};
}

static jboolean JNICALL fits_(STATIC) {
  UNUSED;
  return CELLAR_FITS();
}

static jlong JNICALL open_(STATIC, jint events) {
  UNUSED;
  struct desk *desk = malloc(sizeof *desk);
  if (desk) *desk = (struct desk){0};
  if (desk && cellar_new(&desk->engine, (uint32_t)events)) {
    free(desk);
    desk = NULL;
  }
  return (jlong)desk;
}

static void JNICALL drop_(STATIC, jlong desk) {
  UNUSED;
  cellar_drop(&((struct desk *)desk)->engine);
  free((struct desk *)desk);
  if (malloc_trim) malloc_trim(0); /* pipelines that nobody could reach have been freed, and glibc keeps what they took */
}

static jobject JNICALL buffer_(STATIC, jlong desk) {
  (void)class;
  return (*env)->NewDirectByteBuffer(env, &((struct desk *)desk)->step, sizeof(struct desk) - offsetof(struct desk, step));
}

static jlong JNICALL step_(STATIC, jlong at, jlong by, jlong depth, jlong begun, jlong head, jlong hub, jlong slot, jlong number, jlong user, jlong value,
                          jlong around) {
  UNUSED;
  struct desk *desk = (struct desk *)at;
  struct cellar_command command = {.what = (uint8_t)head, .place = (uint8_t)(head >> 8), .kind = (uint8_t)(head >> 16), .flags = (uint8_t)(head >> 24),
                                   .level = (uint32_t)(head >> 32), .hub = depth & WITH_LEAF ? 0 : (uint64_t)hub, .node = {(uint64_t)slot, (uint64_t)number},
                                   .user = (uint64_t)user, .value = depth & WITH_ITEM ? 0 : (uint64_t)value};
  if (!has_stack(needed(command.what))) return NO_STACK;
  struct cellar_stack stack = stack_of(by, depth, begun);
  uint8_t status = cellar_step(&desk->engine, &stack, &command, &desk->step);
  if (depth & LETS_IN && !status) cellar_pass(&desk->engine, &stack, stack.depth - 1, 0);
  jlong both = depth & (WITH_ITEM | WITH_LEAF | GOES_ON) && !status && !desk->step.handed && !desk->step.closed ? BOTH : 0;
  if (!both) return told(desk, &stack, status, around);
  if (depth & GOES_ON) {
    stack.depth--;
    cellar_next(&desk->engine, &stack, &desk->step);
    return told(desk, &stack, status, around) | both;
  }
  struct cellar_node node = desk->step.node, other = desk->step.other;
  struct cellar_command next = {.what = CELLAR_NEXT, .node = node, .value = (uint64_t)value};
  if (depth & WITH_LEAF)
    next = (struct cellar_command){.what = CELLAR_OPEN, .place = CELLAR_SOURCE, .kind = CELLAR_LEAF, .flags = CELLAR_WISHES, .node = node, .user = (uint64_t)hub};
  desk->words[0] = node.slot;
  desk->words[1] = node.number;
  desk->words[2] = other.number;
  status = cellar_step(&desk->engine, &stack, &next, &desk->step);
  if (status && depth & WITH_LEAF) { /* the caller opens it by itself, and hears why not */
    desk->step.node = node;
    desk->step.other = other;
    both = status = 0;
  }
  return told(desk, &stack, status, around) | both;
}

static jlong JNICALL next_(STATIC, jlong at, jlong by, jlong depth, jlong begun, jlong around) {
  UNUSED;
  struct desk *desk = (struct desk *)at;
  struct cellar_stack stack = stack_of(by, depth, begun);
  uint8_t status = cellar_next(&desk->engine, &stack, &desk->step);
  return told(desk, &stack, status, around);
}

/* An item that is being told already is begun with all who hear it, in one lane. */
static jlong JNICALL give_(STATIC, jlong at, jlong by, jlong depth, jlong begun, jlong slot, jlong number) {
  UNUSED;
  struct desk *desk = (struct desk *)at;
  struct cellar_command command = {.what = CELLAR_NEXT, .node = {(uint64_t)slot, (uint64_t)number}};
  if (!has_stack(needed(CELLAR_DISPOSE))) return -1;
  struct cellar_stack stack = stack_of(by, depth, begun);
  if (cellar_step(&desk->engine, &stack, &command, &desk->step)) {
    if (desk->step.handed) cellar_stop(&desk->engine, &stack);
    return 0;
  }
  if (!desk->step.handed) return 0;
  stack.begun = desk->step.ticket;
  for (uint64_t left = desk->step.copies; left > 1; left--) {
    cellar_next(&desk->engine, &stack, &desk->step);
    stack.begun = desk->step.ticket;
  }
  return (jlong)stack.begun;
}

static void JNICALL pass_(STATIC, jlong at, jlong by, jlong depth, jlong begun, jboolean now) {
  UNUSED;
  struct desk *desk = (struct desk *)at;
  struct cellar_stack stack = stack_of(by, depth, begun);
  cellar_pass(&desk->engine, &stack, stack.depth - 1, now);
}

static void JNICALL stop_(STATIC, jlong at, jlong by, jlong depth, jlong begun) {
  UNUSED;
  struct desk *desk = (struct desk *)at;
  struct cellar_stack stack = stack_of(by, depth, begun);
  cellar_stop(&desk->engine, &stack);
}

/* Further closings of the command, from this place on: how many stand in `words`. */
static jlong JNICALL closings_(STATIC, jlong at, jlong from) {
  UNUSED;
  struct desk *desk = (struct desk *)at;
  uint64_t count = 0;
  cellar_closings(&desk->engine, (uint64_t)from, desk->words, WORDS, &count);
  return (jlong)count;
}

static void JNICALL totals_(STATIC, jlong at) {
  UNUSED;
  struct desk *desk = (struct desk *)at;
  cellar_totals(&desk->engine, &desk->totals);
}

/* The history, or NULL where it is not whole, or memory is refused. */
static jbyteArray JNICALL dump_(STATIC, jlong at) {
  (void)class;
  struct cellar *engine = &((struct desk *)at)->engine;
  uint64_t size = 0;
  uint8_t none = 0;
  jbyteArray told = NULL;
  cellar_dump(engine, &none, 0, &size);
  uint8_t *bytes = malloc(size + 1);
  if (bytes && !cellar_dump(engine, bytes, size, &size) && size <= INT32_MAX && (told = (*env)->NewByteArray(env, (jsize)size)))
    (*env)->SetByteArrayRegion(env, told, 0, (jsize)size, (const jbyte *)bytes);
  free(bytes);
  return told;
}

/* All are linked as the library is loaded: to link one at its first call the JVM would ask for memory in the midst of a step. */
#define CALL(name, given, answers) {(char *)#name, (char *)"(" given ")" answers, (void *)name##_}
JNIEXPORT jint JNICALL JNI_OnLoad(JavaVM *machine, void *reserved) {
  static const JNINativeMethod calls[] = {
      CALL(fits, "", "Z"),          CALL(open, "I", "J"),        CALL(buffer, "J", "Ljava/nio/ByteBuffer;"),
      CALL(step, "JJJJJJJJJJJ", "J"), CALL(next, "JJJJJ", "J"),    CALL(pass, "JJJJZ", "V"),
      CALL(stop, "JJJJ", "V"),      CALL(closings, "JJ", "J"), CALL(totals, "J", "V"),
      CALL(dump, "J", "[B"),        CALL(drop, "J", "V"),        CALL(give, "JJJJJJ", "J"),
  };
  JNIEnv *env;
  (void)reserved;
  if ((*machine)->GetEnv(machine, (void **)&env, JNI_VERSION_1_8)) return JNI_ERR;
  jclass class = (*env)->FindClass(env, "dev/cellarcliff/rx/Native");
  if (!class || (*env)->RegisterNatives(env, class, calls, sizeof calls / sizeof calls[0])) return JNI_ERR;
  return JNI_VERSION_1_8;
}
