/* What an answer of panel.h says, in words for the people who read it on a service screen. For C and C++.
   The numbers are those of documents 01 and 02. One that a request still has to bring has its words already, since numbers
   never change their meaning. */
#ifndef PANEL_WORDS_H
#define PANEL_WORDS_H
#include <stdint.h>

/* A sentence for the number of an answer. */
static inline const char *panel_refusal_words(uint32_t number) {
    switch (number) {
    case 0: return "Done.";
    case 1: return "The bit depth or bit count is not one that this call takes.";
    case 2: return "There is no such block size or transform length.";
    case 3: return "There is no such transform type.";
    case 4: return "A side of this length does not have this kind of transform.";
    case 5: return "The stride, the visible width or the row count is out of range.";
    case 6: return "A buffer has the wrong length, or the block does not fit.";
    case 7: return "A coefficient, residual or level is out of range.";
    case 8: return "A sample of the prediction or of the picture is out of range.";
    case 9: return "The sine or the cosine is out of range.";
    case 10: return "The step would take a sample out of range.";
    case 11: return "This panel has no blocks with a side of 64.";
    case 12: return "The history or its index has the wrong length or wrong contents.";
    case 13: return "This step can't be taken back: it is not in the history, or a later step overlaps it.";
    case 14: return "The history has no room for another step.";
    case 15: return "A number on the way does not fit the bit count.";
    default: return "There is no answer with this number.";
    }
}

/* A sentence for the slice of an answer: the buffer that it is about. */
static inline const char *panel_slice_words(uint32_t slice) {
    switch (slice) {
    case 0: return "No buffer is concerned.";
    case 1: return "It is the buffer of coefficients, levels or residuals that is read.";
    case 2: return "It is the buffer of the prediction or of the picture.";
    case 3: return "It is the buffer for the output.";
    case 4: return "It is the buffer of the first chroma numbers.";
    case 5: return "It is the buffer of the second chroma numbers.";
    default: return "There is no buffer with this number.";
    }
}
#endif
