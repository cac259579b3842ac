// JGraphT, in a Java machine inside this process.
#include "peer.h"
#include <cstdio>
#include <cstdlib>
#include <jni.h>

namespace {
class JGraphT : public Peer {
public:
    JGraphT() {
        JavaVMOption options[] = {{const_cast<char *>("-Djava.class.path=" JGRAPHT_CLASSES), nullptr},
                                  {const_cast<char *>("-Xmx2g"), nullptr}};
        JavaVMInitArgs args = {JNI_VERSION_1_8, 2, options, JNI_FALSE};
        JavaVM *machine;
        if (JNI_CreateJavaVM(&machine, reinterpret_cast<void **>(&env), &args) != JNI_OK)
            fail("the Java machine doesn't start");
        type = env->FindClass("Jgrapht");
        start = type ? env->GetStaticMethodID(type, "startAnew", "()V") : nullptr;
        speak = type ? env->GetStaticMethodID(type, "say", "([J)J") : nullptr;
        if (!start || !speak)
            fail("there is no class Jgrapht");
    }
    const char *name() const override { return "JGraphT"; }
    void start_anew() override {
        env->CallStaticVoidMethod(type, start);
        check();
    }
    size_t say(std::span<const Saying> sayings) override {
        static_assert(sizeof(Saying) == 3 * sizeof(jlong));
        jlongArray numbers = env->NewLongArray(static_cast<jsize>(3 * sayings.size()));
        env->SetLongArrayRegion(numbers, 0, static_cast<jsize>(3 * sayings.size()), reinterpret_cast<const jlong *>(sayings.data()));
        jlong done = env->CallStaticLongMethod(type, speak, numbers);
        check();
        env->DeleteLocalRef(numbers);
        return static_cast<size_t>(done);
    }

private:
    [[noreturn]] static void fail(const char *why) {
        std::fprintf(stderr, "bench: %s\n", why);
        std::exit(1);
    }
    void check() {
        if (env->ExceptionCheck()) {
            env->ExceptionDescribe();
            fail("Java threw an exception");
        }
    }

    JNIEnv *env;
    jclass type;
    jmethodID start;
    jmethodID speak;
};
} // namespace

std::unique_ptr<Peer> make_jgrapht() { return std::make_unique<JGraphT>(); }
