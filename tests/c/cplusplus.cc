/* The headers from C++: they compile, and the names are those of the archive. */
#include "panel.h"
#include "panel_words.h"

extern "C" int seen_from_cplusplus(void) {
    panel_answer answer = panel_cctx(nullptr, 0, nullptr, 0, 257, 1, 8);
    return answer.number == 9 && answer.slice == 0 && answer.place == 0 && panel_refusal_words(answer.number)[0] != 0 &&
           panel_slice_words(answer.slice)[0] != 0;
}
