/* Drives the native library without a JVM: stub LIBRARY. It loads the library, gives it an environment that only registers its calls, and makes the calls
 * of a Using with four items that is disposed of. By it a library for a machine on which no JVM is at hand is tried under an emulator. */
#include <dlfcn.h>
#include <jni.h>
#include <stdint.h>
#include <stdio.h>
#include <stdlib.h>
#include <string.h>

static JNINativeMethod calls[16];
static void *memory;

static jclass JNICALL find_class(JNIEnv *env, const char *name) {
  (void)env;
  return (jclass)(strcmp(name, "dev/cellarcliff/rx/Native") ? NULL : calls);
}

static jint JNICALL register_natives(JNIEnv *env, jclass class, const JNINativeMethod *given, jint count) {
  (void)env, (void)class;
  if (count > 16) return JNI_ERR;
  memcpy(calls, given, (size_t)count * sizeof *given);
  return 0;
}

static jobject JNICALL direct_buffer(JNIEnv *env, void *at, jlong size) {
  (void)env, (void)size;
  return (jobject)(memory = at);
}

static struct JNINativeInterface_ table = {.FindClass = find_class, .RegisterNatives = register_natives, .NewDirectByteBuffer = direct_buffer};
static JNIEnv env = &table;

static jint JNICALL get_env(JavaVM *machine, void **at, jint version) {
  (void)machine, (void)version;
  *at = &env;
  return 0;
}

static void *called(const char *name) {
  for (int i = 0; i < 16 && calls[i].name; i++)
    if (!strcmp(calls[i].name, name)) return calls[i].fnPtr;
  fprintf(stderr, "stub: there is no call %s\n", name);
  exit(1);
}

static void expect(const char *what, long long expected, long long found) {
  if (expected == found) return;
  fprintf(stderr, "stub: %s is %lld and not %lld\n", what, found, expected);
  exit(1);
}

typedef jlong(JNICALL *step_call)(JNIEnv *, jclass, jlong, jlong, jlong, jlong, jlong, jlong, jlong, jlong, jlong, jlong, jlong);
typedef jlong(JNICALL *next_call)(JNIEnv *, jclass, jlong, jlong, jlong, jlong, jlong);
typedef jlong(JNICALL *give_call)(JNIEnv *, jclass, jlong, jlong, jlong, jlong, jlong, jlong);

/* As Native.java has them: of what a step answers, and places of 8 bytes in its memory. */
enum { HANDED = 1 << 8, KIND = 16, NOTED = 24, NODE = 0, TICKET = 18, USER = 20, TOTALS = 24 };
enum { OPEN = 0, USING = 1, NEXT = 3, DISPOSE = 8, SOURCE = 1 };

int main(int count, char **words) {
  void *library = count == 2 ? dlopen(words[1], RTLD_NOW) : NULL;
  if (!library) return fprintf(stderr, "stub: %s\n", count == 2 ? dlerror() : "wants a library"), 1;
  jint(JNICALL * load)(JavaVM *, void *);
  *(void **)&load = dlsym(library, "JNI_OnLoad");
  struct JNIInvokeInterface_ invoke = {.GetEnv = get_env};
  JavaVM machine = &invoke;
  expect("JNI_OnLoad", JNI_VERSION_1_8, load(&machine, NULL));
  expect("fits", 1, ((jboolean(JNICALL *)(JNIEnv *, jclass))called("fits"))(&env, NULL));
  jlong desk = ((jlong(JNICALL *)(JNIEnv *, jclass, jint))called("open"))(&env, NULL, 0);
  ((jobject(JNICALL *)(JNIEnv *, jclass, jlong))called("buffer"))(&env, NULL, desk);
  const uint64_t *told = memory;
  step_call step = (step_call)called("step");
  next_call next = (next_call)called("next");
  expect("using", 0, step(&env, NULL, desk, 1, 1, 0, USING, 0, 0, 0, 100, 200, 0));
  jlong root[] = {(jlong)told[NODE], (jlong)told[NODE + 1]};
  expect("open", 0, step(&env, NULL, desk, 1, 1, 0, OPEN | SOURCE << 8, 0, root[0], root[1], 0, 0, 0));
  jlong leaf[] = {(jlong)told[NODE], (jlong)told[NODE + 1]}, begun = 0;
  for (int i = 0; i < 2; i++) {
    jlong it = step(&env, NULL, desk, 1, 1, begun, NEXT, 0, leaf[0], leaf[1], 0, 300, 0);
    expect("an item is handed out", HANDED, it & HANDED);
    expect("for whom", 100, (long long)told[USER]);
    begun = (jlong)told[TICKET];
    expect("behind it", 0, next(&env, NULL, desk, 1, 1, begun, 0) & HANDED);
  }
  for (int i = 0; i < 2; i++) {
    begun = ((give_call)called("give"))(&env, NULL, desk, 1, 1, begun, leaf[0], leaf[1]);
    expect("an item that is told already", 1, begun > 0);
    expect("behind it", 0, next(&env, NULL, desk, 1, 1, begun, 0) & HANDED);
  }
  int kinds = 0, noted = 0;
  for (jlong it = step(&env, NULL, desk, 1, 1, begun, DISPOSE, 0, root[0], root[1], 0, 0, 0); it & HANDED; it = next(&env, NULL, desk, 1, 1, begun, 0)) {
    noted += (int)(it >> NOTED) & 255;
    kinds = 10 * kinds + (int)((it >> KIND) & 255);
    begun = (jlong)told[TICKET];
  }
  expect("gone, which is noted", 1, noted);
  expect("and then the release", 5, kinds);
  ((void(JNICALL *)(JNIEnv *, jclass, jlong))called("totals"))(&env, NULL, desk);
  for (int i = 0; i < 4; i++) expect("what is left", 0, (long long)told[TOTALS + i]);
  ((void(JNICALL *)(JNIEnv *, jclass, jlong))called("drop"))(&env, NULL, desk);
  puts("stub: four items, one release, nothing is left");
  return 0;
}
