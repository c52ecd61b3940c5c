/* The parallel regions of a live file, of which there may be any number: whether the begin of each is out, and which
   members of its team have begun. They are in pages by their numbers. A page goes when all is out of its regions: so
   memory is needed only for those that are at work, and those of which a member never begins. */
#define _GNU_SOURCE
#include "recorder.h"

#include <sys/mman.h>

enum { TEAMS_OF_PAGE = 4096, PAGES = 1 << 20 };

struct page {
    uint32_t done;
    struct live_team teams[TEAMS_OF_PAGE];
};

/* NULL for a page whose regions are all to come. */
static struct page **pages;
/* In the place of a page whose regions are all done. */
static struct page done_page;

static void *map(size_t bytes) {
    void *made = mmap(NULL, bytes, PROT_READ | PROT_WRITE, MAP_PRIVATE | MAP_ANONYMOUS | MAP_NORESERVE, -1, 0);
    return made == MAP_FAILED ? NULL : made;
}

/* The place of the page that has the region, or NULL where there is no memory. */
static struct page **page_of(uint32_t region) {
    if (!pages) pages = map(PAGES * sizeof *pages);
    return pages ? &pages[region / TEAMS_OF_PAGE] : NULL;
}

struct live_team *live_team(uint32_t region) {
    struct page **page = page_of(region);
    if (!page || *page == &done_page) return NULL;
    if (!*page) {
        *page = map(sizeof **page);
        /* no region has the number 0 */
        if (*page && region < TEAMS_OF_PAGE) (*page)->done = 1;
    }
    struct live_team *team = *page ? &(*page)->teams[region % TEAMS_OF_PAGE] : NULL;
    return team && !team->is_done ? team : NULL;
}

/* Where there is no memory for it, all counts as begun, so that nothing waits for ever. */
bool is_begun_live(uint32_t region) {
    struct live_team *team = live_team(region);
    return !team || team->is_begun;
}

/* A region with a team is done when it has ended and all members began; one without, as a teams construct, when it has
   ended. */
void look_at_live_team(uint32_t region) {
    struct live_team *team = live_team(region);
    if (!team || !team->has_ended || team->team.begun < team->team.size) return;
    struct page **page = page_of(region);
    team->is_done = true;
    if (++(*page)->done < TEAMS_OF_PAGE) return;
    munmap(*page, sizeof **page);
    *page = &done_page;
}

void forget_teams(void) {
    pages = NULL;
}
