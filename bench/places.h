/* The places' names, in the order of the fragments. */
static const char *const place_names[] = {"x0", "x1", "x2", "y0", "y1", "y2", "px", "py", "p0", "p1"};
