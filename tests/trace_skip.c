/*
 * Wrong, for tests/trace: goes through both names to the end, but reads no byte of the other behind the first that differs. What
 * volatile is for, trace_exit.c says.
 */
_Bool same(const volatile unsigned char *one, const volatile unsigned char *other)
{
    _Bool differ = 0;
    for (unsigned at = 0; at < 48; at++) {
        unsigned char byte = one[at];
        if (!differ && byte != other[at]) {
            differ = 1;
        }
    }
    return !differ;
}
