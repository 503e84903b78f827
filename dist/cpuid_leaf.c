/* Which features the processor has, as glibc 2.33 and later tell a program that asks: for older ones, which do not know
   the question. Of all that is asked, these are the two leaves that the program's start reads. */
struct leaf { unsigned cpuid[4], active[4]; };

const struct leaf *__x86_get_cpuid_feature_leaf(unsigned number) {
    static struct leaf leaves[2];
    static const struct leaf none;
    if (number != 0 && number != 2) return &none;
    struct leaf *it = &leaves[number / 2];
    unsigned of = number == 0 ? 1 : 0x80000001;
    __asm__("cpuid" : "=a"(it->cpuid[0]), "=b"(it->cpuid[1]), "=c"(it->cpuid[2]), "=d"(it->cpuid[3]) : "a"(of), "c"(0));
    for (int i = 0; i < 4; i++) it->active[i] = it->cpuid[i];
    return it;
}
