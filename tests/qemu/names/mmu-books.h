/* What the number of one of QEMU's TLBs says of the mode. */
static inline bool mmuidx_pr(int idx)
{
    return (idx & 1) == 0;
}

static inline bool mmuidx_real(int idx)
{
    return (idx & 2) != 0;
}
