/* Preloaded into wlcs, it watches the requests of wlcs's clients (wl_proxy_marshal_flags), and does two things for them:
 * - acknowledges: wlcs 1.5.0 commits a buffer right behind the initial commit of a toplevel, or makes none, and waits for no xdg_surface.configure. Where
 *   that happens, the configure is asked for, waited for and acknowledged first. Toplevels that acknowledge get another configure behind their
 *   first frame, by unset_fullscreen, since wlcs waits for one.
 * - places windows: the place of a toplevel is known by wlframe's rule, and its own buffer is attached again with the offset to the wished place.
 *   A toplevel that is mapped again is placed again. */
#define _GNU_SOURCE
#include <stdarg.h>
#include <dlfcn.h>
#include <stdio.h>
#include <stdlib.h>
#include <string.h>
#include <wayland-client.h>

enum state { FRESH, WAITING, READY, MAPPED };
typedef void (*configured)(void *, struct wl_proxy *, uint32_t);
struct window {
    void *surface, *xdg, *toplevel;
    struct wl_proxy *pending, *buffer;
    enum state state;
    configured *listener;
    int is_attached, is_mended, is_wanted, wanted[2], is_toplevel, has_role, place, dx, dy, x, y, geometry[2], new_geometry[2];
    uint32_t serial;
};
static struct window windows[4096];
static int window_count, mapped_count;

static struct window *window_of(void *surface, void *xdg)
{
    for (int k = window_count; k-- > 0;)
        if (surface ? windows[k].surface == surface : xdg && windows[k].xdg == xdg) return &windows[k];
    return NULL;
}


static void roundtrip(struct wl_display *display) /* dispatches nothing of the client's */
{
    struct wl_event_queue *queue = wl_display_create_queue(display);
    wl_display_roundtrip_queue(display, queue);
    wl_event_queue_destroy(queue);
}

static void on_configure(void *data, struct wl_proxy *xdg, uint32_t serial)
{
    struct window *it = window_of(NULL, xdg);
    if (it) it->serial = serial;
    if (it && it->listener && *it->listener) (*it->listener)(data, xdg, serial);
}

int wl_proxy_add_listener(struct wl_proxy *proxy, void (**listener)(void), void *data)
{
    static configured ours[] = {on_configure};
    int (*next)(struct wl_proxy *, void (**)(void), void *) = (int (*)(struct wl_proxy *, void (**)(void), void *))dlsym(RTLD_NEXT, "wl_proxy_add_listener");
    struct window *it = strcmp(wl_proxy_get_class(proxy), "xdg_surface") ? NULL : window_of(NULL, proxy);
    if (!it) return next(proxy, listener, data);
    it->listener = (configured *)listener;
    return next(proxy, (void (**)(void))ours, data);
}

static void ask(void *proxy, uint32_t opcode, void *object, uint32_t first, uint32_t second) /* unwatched */
{
    union wl_argument args[] = {{.o = object}, {.u = first}, {.u = second}};
    wl_proxy_marshal_array_flags(proxy, opcode, NULL, wl_proxy_get_version(proxy), 0, object || opcode == 1 ? args : args + 1);
}

/* Before a commit of a buffer that comes too early. */
static void acknowledge(struct window *it)
{
    struct wl_display *display = ((struct wl_display **)it->surface)[3]; /* in wl_proxy behind its interface, implementation and id */
    int was_fresh = it->state == FRESH;
    if (!it->has_role || it->state > WAITING || !it->is_attached || !it->pending) return;
    if (was_fresh) {
        ask(it->surface, 1, NULL, 0, 0);
        ask(it->surface, 6, NULL, 0, 0);
        it->state = WAITING, it->serial = 0;
        fprintf(stderr, "mend: wlcs commits a buffer without an initial commit; that is done for it\n");
    }
    roundtrip(display);
    wl_display_dispatch_pending(display);
    if (it->state == WAITING && it->serial) {
        fprintf(stderr, "mend: wlcs commits a buffer before it has acknowledged a configure; that is done for it\n");
        ask(it->xdg, 4, NULL, it->serial, 0);
        it->state = READY, it->is_mended = 1;
    }
    if (was_fresh) ask(it->surface, 1, it->pending, it->dx, it->dy);
}

/* wlcs waits for a configure behind the first frame, which the protocol doesn't promise: the toplevel is made to get one. */
static void nudge(struct window *it)
{
    if (!it->toplevel || it->is_mended) return;
    fprintf(stderr, "mend: unset_fullscreen is asked, for the configure that wlcs may wait for\n");
    ask(it->toplevel, 12, NULL, 0, 0);
}

int mend_position(struct wl_display *client, struct wl_surface *surface, int x, int y, int *left, int *top);

static void watch(void *proxy, const char *of, unsigned opcode, union wl_argument *args, void *made)
{
    struct window *it;
    if (!strcmp(of, "wl_compositor") && opcode == 0 && window_count < 4096) {
        windows[window_count++] = (struct window){.surface = made};
    } else if (!strcmp(of, "wl_buffer") && opcode == 0) {
        for (int k = 0; k < window_count; k++) {
            if (windows[k].buffer == proxy) windows[k].buffer = NULL;
            if (windows[k].pending == proxy) windows[k].pending = NULL;
        }
    } else if (!strcmp(of, "xdg_wm_base") && opcode == 2) {
        if ((it = window_of(args[1].o, NULL))) it->xdg = made;
    } else if (!strcmp(of, "xdg_surface") && (it = window_of(NULL, proxy))) {
        if (opcode == 1 || opcode == 2) it->has_role = 1, it->is_toplevel = opcode == 1, it->toplevel = opcode == 1 ? made : NULL, it->state = FRESH;
        if (opcode == 4 && it->state == WAITING) it->state = READY;
        if (opcode == 3) it->new_geometry[0] = args[0].i, it->new_geometry[1] = args[1].i;
        if (opcode == 0) it->state = FRESH, it->has_role = it->is_mended = 0, it->xdg = it->toplevel = NULL;
    } else if (!strcmp(of, "wl_surface") && (it = window_of(proxy, NULL))) {
        if (opcode == 0) it->surface = it->xdg = NULL;
        if (opcode == 1) it->is_attached = 1, it->pending = (void *)args[0].o, it->dx = args[1].i, it->dy = args[2].i;
        if (opcode == 6) {
            memcpy(it->geometry, it->new_geometry, sizeof it->geometry);
            if (it->is_attached) it->buffer = it->pending, it->x += it->dx, it->y += it->dy;
            it->is_attached = 0;
            if (!it->has_role) return;
            if (it->state == FRESH && !it->buffer) it->state = WAITING, it->serial = 0;
            else if (it->state == MAPPED && !it->buffer) it->state = FRESH;
            else if (it->state == READY && it->buffer) {
                it->state = MAPPED;
                if (it->is_toplevel) it->place = 32 * (mapped_count++ % 8);
                nudge(it);
                int left, top;
                if (it->is_wanted) mend_position(((struct wl_display **)it->surface)[3], it->surface, it->wanted[0], it->wanted[1], &left, &top);
            }
        }
    }
}

struct wl_proxy *wl_proxy_marshal_flags(struct wl_proxy *proxy, uint32_t opcode, const struct wl_interface *interface, uint32_t version, uint32_t flags, ...)
{
    union wl_argument args[20] = {0};
    const struct wl_interface *of = *(const struct wl_interface **)proxy; /* a proxy begins with its interface */
    char name[64];
    int count = 0;
    va_list rest;
    va_start(rest, flags);
    for (const char *it = of->methods[opcode].signature; *it; it++) {
        if (strchr("iufh", *it)) args[count++].i = va_arg(rest, int32_t);
        else if (strchr("sona", *it)) args[count++].o = va_arg(rest, void *);
    }
    va_end(rest);
    snprintf(name, sizeof name, "%s", of->name);
    if (!strcmp(name, "wl_surface") && opcode == 6 && window_of(proxy, NULL)) acknowledge(window_of(proxy, NULL));
    struct wl_proxy *made = wl_proxy_marshal_array_flags(proxy, opcode, interface, version, flags, args);
    watch(proxy, name, opcode, args, made);
    return made;
}

/* Places a toplevel's window, and tells where its surface stands then. 0 where it can't be placed now. */
int mend_position(struct wl_display *client, struct wl_surface *surface, int x, int y, int *left, int *top)
{
    struct window *it = window_of(surface, NULL);
    if (it) it->is_wanted = 1, it->wanted[0] = x, it->wanted[1] = y;
    if (!it || !it->is_toplevel || it->state != MAPPED || !it->buffer) {
        fprintf(stderr, "mend: the window can't be placed: it is no toplevel, isn't mapped or its buffer is gone\n");
        return 0;
    }
    int dx = x - it->place - it->x - it->geometry[0], dy = y - it->place - it->y - it->geometry[1];
    if (dx || dy) {
        wl_surface_attach(surface, (struct wl_buffer *)it->buffer, dx, dy);
        wl_surface_commit(surface);
    }
    wl_display_flush(client); /* no roundtrip: wlcs waits for the events of it by looking at its socket */
    *left = x - it->geometry[0], *top = y - it->geometry[1];
    return 1;
}
