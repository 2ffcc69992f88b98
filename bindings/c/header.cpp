// The header in C++: it compiles, its calls link under their own names, and what it defines itself closes handles.
#include "h26x.h"

int main()
{
    h26x_packetizer p = {nullptr};
    h26x_depacketizer d = {nullptr};
    h26x_receiver r = {{nullptr}};
    h26x_access_units u = {nullptr};
    h26x_packetizer_close(&p);
    h26x_depacketizer_close(&d);
    h26x_receiver_close(&r);
    h26x_access_units_close(&u);
    return h26x_out_size_hint(0) == 4 ? 0 : 1;
}
