// The header in C++.
#include "layout.h"

int main() {
    wfe_seat seat = WFE_NO_SEAT;
    return wfe_get(&seat, 1).code == WFE_BAD_SEAT && wfe_get(nullptr, 1).code == WFE_NULL ? 0 : 1;
}
