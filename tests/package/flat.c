/* Calls one function of the archive and nothing inline. */
#include <gedrovit.h>

int main(void)
{
    const uint8_t none = 0;
    return (int)gedrovit_sizes_for(0, 0, 0, &none, 0, 0).reason;
}
