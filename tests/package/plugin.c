/* A plug-in with an archive in it: what its own archive says to 7 rounds. Through gedrovit.h, and in C++ through gedrovit.hpp. */
#ifdef __cplusplus
#include <gedrovit.hpp>
extern "C" {
#else
#include <gedrovit.h>
#endif

uint32_t plugin_reason(void);

uint32_t plugin_reason(void)
{
#ifdef __cplusplus
    return gedrovit::check(7, gedrovit::net())->reason;
#else
    const gedrovit_net empty = gedrovit_net_of(NULL, 0, NULL, 0, NULL, 0);
    return gedrovit_sizes_for_net(7, &empty).reason;
#endif
}

#ifdef __cplusplus
}
#endif
