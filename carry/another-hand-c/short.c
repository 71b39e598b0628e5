/* Document 01, module 2, and request No. 6. */
#include "g.h"

Short g_short(float a, float lo, float extent)
{
    Short s = { 0, 0 };
    /* "extent below 2^-23 in magnitude gives 0"; No. 6: "an extent under 2^-23 in magnitude never counts" */
    float magnitude = extent < 0 ? -extent : extent;
    if (magnitude < 0x1p-23f)
        return s;
    /* "otherwise (a - lo) / extent, clamped to 0..1, times 65535, halves away from zero; NaN gives 0"
     * No. 6: "Making a short now also says whether the fraction was below 0, above 1 or a NaN. Negative zero is inside" */
    float difference = a - lo;
    float t = difference / extent;
    if (t != t) { s.outside = 1; return s; }
    if (t < 0.0f) { s.outside = 1; t = 0.0f; }
    if (t > 1.0f) { s.outside = 1; t = 1.0f; }
    float p = t * 65535.0f;
    uint32_t whole = (uint32_t)p;
    if (p - (float)whole >= 0.5f)
        whole++;
    s.q = (uint16_t)whole;
    return s;
}
