/* Faults that the tests have to find. tools/capi chooses one: -DPLANT_RESULT -Wl,--wrap=dkap_max, and so on. */
#include "dkap.h"

#ifdef PLANT_RESULT
uint64_t __real_dkap_max(struct dkap_histogram *h);
uint64_t __wrap_dkap_max(struct dkap_histogram *h);

uint64_t __wrap_dkap_max(struct dkap_histogram *h)
{
    return __real_dkap_max(h) + 1;
}
#endif

/* A handle is closed, and its histogram is not freed. */
#ifdef PLANT_LEAK
void __wrap_dkap_close(struct dkap_histogram *h);

void __wrap_dkap_close(struct dkap_histogram *h)
{
    h->filled_ = false;
    h->at_ = NULL;
}
#endif

/* A byte past the input is read. */
#ifdef PLANT_READ
dkap_status __real_dkap_decode(struct dkap_histogram *h, const uint8_t *bytes, size_t length, uint64_t limit,
                                   size_t *taken);
dkap_status __wrap_dkap_decode(struct dkap_histogram *h, const uint8_t *bytes, size_t length, uint64_t limit,
                                   size_t *taken);

dkap_status __wrap_dkap_decode(struct dkap_histogram *h, const uint8_t *bytes, size_t length, uint64_t limit,
                                   size_t *taken)
{
    return __real_dkap_decode(h, bytes, length + 1, limit, taken);
}
#endif
