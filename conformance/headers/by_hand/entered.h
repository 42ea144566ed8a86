/* What entered.c calls. */
enum state { OFF, ON };
struct item { int id; float weight; };
struct box { double x, y, w, h; };
struct wide { long a, b, c, d, e; };
struct tag { char name[12]; short n; };
double weigh(struct item item, const char *label, double scale, struct box box, struct wide wide, long a, long b,
             struct tag tag, unsigned char c, enum state d, float e, short f);
struct item pair(const char *format, ...);
struct wide widen(int a);
