// Measures how the cost of a request grows with c, and draws it as an SVG picture.
#include "bench.h"

enum { FIRST_SIZE = 16, SIZES = 7 };
enum { OF_REQUEST, OF_RUN, COLUMNS };
static const u32 shown[COLUMNS] = { [OF_REQUEST] = REQUEST, [OF_RUN] = RUN };

// In pixels. Each policy and operation has a panel, in a cell with room for titles, numbers and the lines' names.
enum { WIDTH = 800, TOP = 90, CELL_WIDTH = WIDTH / COLUMNS, CELL_HEIGHT = 300 };
enum { LEFT = 70, RIGHT = 82, ABOVE = 26, BELOW = 52 };
enum { PANEL_WIDTH = CELL_WIDTH - LEFT - RIGHT, PANEL_HEIGHT = CELL_HEIGHT - ABOVE - BELOW, LINE_HEIGHT = 15 };

// Told apart without colours, too: by dashes, by the marker, and by the name at the line's end.
static const struct {
    const char *colour, *dashes, *marker;
} looks[ENGINES] = {
    [OURS] = { "#0b4f9e", "none", "<circle cx='%.1f' cy='%.1f' r='3.4' fill='%s'/>\n" },
    [PLAIN] = { "#b34700", "7 4", "<path d='M%.1f %.1fm-5.5 -5.5h11v11h-11z' fill='none' stroke='%s'/>\n" },
    [HASHED] = { "#1e6b34", "2 3", "<path d='M%.1f %.1fm0 -5.5l5 9h-10z' fill='%s'/>\n" },
};

static double cost[POLICIES][COLUMNS][ENGINES][SIZES];

// The ends of the scale of all panels, in decades.
static double lowest, highest;

// The logarithm to base 10, bit by bit: the C library's is in a part that is not linked.
static double decades(double x) {
    double sum = 0;
    for (; x >= 10; x /= 10) sum++;
    for (; x < 1; x *= 10) sum--;
    for (double bit = 0.5; bit > 1e-4; bit /= 2) {
        x *= x;
        if (x < 10) continue;
        x /= 10;
        sum += bit;
    }
    return sum;
}

static double x_of(u32 size) {
    return LEFT + PANEL_WIDTH * (double)size / (SIZES - 1);
}

static double y_of(double decade) {
    return ABOVE + PANEL_HEIGHT * (highest - decade) / (highest - lowest);
}

static void measure_growth(u32 policy, u32 size) {
    const struct setting *s = prepared(&policies[policy], FIRST_SIZE << size, &kinds[ZIPF]);
    double times[ENGINES];
    for (u32 column = 0; column < COLUMNS; column++) {
        measure(s, shown[column], times);
        for (u32 e = 0; e < ENGINES; e++) cost[policy][column][e][size] = times[e];
    }
}

// From times to decades of the unit, which is one request of the hashed engine's run with the first policy and size.
static void scale(void) {
    double *first = &cost[0][0][0][0], unit = cost[0][OF_RUN][HASHED][0];
    for (double *at = first; at < first + sizeof cost / sizeof *first; at++) {
        *at = decades(*at / unit);
        while (*at < lowest) lowest -= 0.25;
        while (*at > highest) highest += 0.25;
    }
}

static void draw_axes(void) {
    for (int decade = (int)lowest; decade <= highest; decade++) {
        double y = y_of(decade), value = 1;
        int digits = decade < 0 ? -decade : 0;
        for (int k = 0; k < decade; k++) value *= 10;
        for (int k = 0; k < digits; k++) value /= 10;
        printf("<path d='M%d %.1fh%d' class='grid'/>\n", LEFT, y, PANEL_WIDTH);
        printf("<text x='%d' y='%.1f' text-anchor='end'>%.*f</text>\n", LEFT - 8, y + 4, digits, value);
    }
    for (u32 size = 0; size < SIZES; size++) {
        printf("<path d='M%.1f %dv5' class='axis'/>\n", x_of(size), ABOVE + PANEL_HEIGHT);
        printf("<text x='%.1f' y='%d' text-anchor='middle'>%d</text>\n", x_of(size), ABOVE + PANEL_HEIGHT + 19,
               FIRST_SIZE << size);
    }
    printf("<path d='M%d %dv%dh%d' class='axis'/>\n", LEFT, ABOVE, PANEL_HEIGHT, PANEL_WIDTH);
    printf("<text x='%d' y='%d' text-anchor='middle'>c, pages in the cache</text>\n", LEFT + PANEL_WIDTH / 2,
           ABOVE + PANEL_HEIGHT + 38);
    printf("<text transform='translate(16 %d) rotate(-90)' text-anchor='middle'>cost of a request</text>\n",
           ABOVE + PANEL_HEIGHT / 2);
}

static void draw_line(u32 e, const double *costs) {
    printf("<path fill='none' stroke='%s' stroke-width='2' stroke-dasharray='%s' d='", looks[e].colour,
           looks[e].dashes);
    for (u32 size = 0; size < SIZES; size++) printf("%c%.1f %.1f", size ? 'L' : 'M', x_of(size), y_of(costs[size]));
    printf("'/>\n");
    for (u32 size = 0; size < SIZES; size++) printf(looks[e].marker, x_of(size), y_of(costs[size]), looks[e].colour);
}

// Names that would overlap move apart, a little at a time.
static void move_apart(double at[ENGINES]) {
    for (u32 k = 0; k < 100; k++)
        for (u32 a = 0; a < ENGINES; a++)
            for (u32 b = 0; b < ENGINES; b++) {
                double gap = at[b] - at[a];
                if (gap <= 0 || gap >= LINE_HEIGHT) continue;
                at[a]--;
                at[b]++;
            }
}

static void draw_panel(u32 policy, u32 column) {
    double at[ENGINES];
    printf("<g transform='translate(%d %d)'>\n", column * CELL_WIDTH, TOP + policy * CELL_HEIGHT);
    printf("<text x='%d' y='%d' class='panel'>%s, %s</text>\n", LEFT, ABOVE - 10, policies[policy].name,
           operation_names[shown[column]]);
    draw_axes();
    for (u32 e = 0; e < ENGINES; e++) {
        draw_line(e, cost[policy][column][e]);
        at[e] = y_of(cost[policy][column][e][SIZES - 1]) + 0.01 * e; // no two at the same height
    }
    move_apart(at);
    for (u32 e = 0; e < ENGINES; e++)
        printf("<text x='%d' y='%.1f' fill='%s'>%s</text>\n", LEFT + PANEL_WIDTH + 11, at[e] + 4, looks[e].colour,
               engines[e].name);
    printf("</g>\n");
}

static void draw_frame(void) {
    int height = TOP + POLICIES * CELL_HEIGHT;
    printf("<svg xmlns='http://www.w3.org/2000/svg' width='%d' height='%d' viewBox='0 0 %d %d' role='img'>\n", WIDTH,
           height, WIDTH, height);
    printf("<style>text{font:13px sans-serif}.title{font-size:18px;font-weight:bold}"
           ".panel{font-size:14px;font-weight:bold}.grid{stroke:#ddd}.axis{fill:none;stroke:#333}</style>\n"
           "<rect width='100%%' height='100%%' fill='white'/>\n");
    printf("<text x='16' y='28' class='title'>What a request costs as the cache grows</text>\n"
           "<text x='16' y='50'>Zipf over 8c pages with scans. Both axes are logarithmic.</text>\n"
           "<text x='16' y='68'>Cost 1 is one request in a run of %s with %s and c = %d.</text>\n",
           engines[HASHED].name, policies[0].name, FIRST_SIZE);
}

void draw_growth(void) {
    for (u32 policy = 0; policy < POLICIES; policy++)
        for (u32 size = 0; size < SIZES; size++) measure_growth(policy, size);
    scale();
    draw_frame();
    for (u32 policy = 0; policy < POLICIES; policy++)
        for (u32 column = 0; column < COLUMNS; column++) draw_panel(policy, column);
    printf("</svg>\n");
}
