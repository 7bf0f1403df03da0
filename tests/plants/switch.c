/* Which planted fault is on, by its number: a place in the program's own image, so that a copy with another number there is the program with
   another fault, whatever environment it runs in. */
static volatile struct {
    char mark[16];
    unsigned number;
} plant = {"WHICH-PLANT-IS:", 0};

unsigned tabd_plant(void) { return plant.number; }
