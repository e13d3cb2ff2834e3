/*
 * Wrong, for tests/trace: leaves at the first byte that differs, as the comparison of version 2.0.0 did. Each read stays where it
 * stands, which is what volatile says: of a copy on the stack a compiler may read every byte before it compares the first.
 */
_Bool same(const volatile unsigned char *one, const volatile unsigned char *other)
{
    for (unsigned at = 0; at < 48; at++) {
        if (one[at] != other[at]) {
            return 0;
        }
    }
    return 1;
}
