// The header, as C++ reads it.
#include "poincare.h"

#include <cstdio>

int main() {
    static_assert(alignof(poincare_session) == 16 && alignof(poincare_stopper) == 16, "slots lie at multiples of 16");
    poincare_session session;
    char text[16];
    std::size_t count = 0;

    poincare_session_init(&session);
    if (poincare_open(&session, 32768) != POINCARE_DONE)
        return 1;
    uint32_t code = poincare_line(&session, "1/3+1/6", 7);
    poincare_text(&session, text, sizeof text, &count);
    bool right = code == POINCARE_SHOWN && count == 3 && text[0] == '1' && text[1] == '/' && text[2] == '2';
    poincare_close(&session);
    std::printf("%d passed, %d failed\n", right, !right);
    return right ? 0 : 1;
}
