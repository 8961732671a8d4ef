/* A client that commits a whole window for each frame that it is shown, or changes a part of it.
 *
 *     frames_client WIDTH HEIGHT FRAMES [PART_WIDTH PART_HEIGHT]
 *
 * It shows two buffers of WIDTH by HEIGHT in turns, each with damage of all of it, and ends after FRAMES frame callbacks. With a part it draws that part of
 * each, at the corner, in another colour each time, and damages it alone. */
#define _GNU_SOURCE
#include <stdio.h>
#include <stdlib.h>
#include <string.h>
#include <sys/mman.h>
#include <unistd.h>
#include <wayland-client.h>
#include "xdg-shell.h"

static struct wl_compositor *compositor;
static struct wl_shm *shm;
static struct xdg_wm_base *base;
static struct wl_surface *surface;
static struct wl_buffer *buffers[2];
static int width, height, left_to_show, shown, part_width, part_height;
static unsigned *pixels;

static void fail(const char *what)
{
    perror(what);
    exit(1);
}

static void commit(void);

static void done(void *data, struct wl_callback *callback, uint32_t time)
{
    (void)data;
    (void)time;
    wl_callback_destroy(callback);
    if (--left_to_show == 0)
        exit(0);
    commit();
}

static const struct wl_callback_listener on_done = {done};

static void draw_part(unsigned *buffer)
{
    for (int y = 0; y < part_height; y++)
        for (int x = 0; x < part_width; x++)
            buffer[y * width + x] = shown * 0x010305u;
}

static void commit(void)
{
    wl_callback_add_listener(wl_surface_frame(surface), &on_done, NULL);
    if (part_width)
        draw_part(pixels + (long)(shown % 2) * width * height);
    wl_surface_attach(surface, buffers[shown % 2], 0, 0);
    wl_surface_damage(surface, 0, 0, part_width && shown ? part_width : width, part_width && shown ? part_height : height);
    wl_surface_commit(surface);
    shown++;
}

static void ping(void *data, struct xdg_wm_base *at, uint32_t serial)
{
    (void)data;
    xdg_wm_base_pong(at, serial);
}

static const struct xdg_wm_base_listener on_ping = {ping};

static void configure(void *data, struct xdg_surface *at, uint32_t serial)
{
    (void)data;
    xdg_surface_ack_configure(at, serial);
    if (shown == 0)
        commit();
}

static const struct xdg_surface_listener on_configure = {configure};

static void toplevel_configure(void *data, struct xdg_toplevel *at, int32_t w, int32_t h, struct wl_array *states)
{
    (void)data, (void)at, (void)w, (void)h, (void)states;
}

static void toplevel_close(void *data, struct xdg_toplevel *at)
{
    (void)data, (void)at;
    exit(1);
}

static const struct xdg_toplevel_listener on_toplevel = {.configure = toplevel_configure, .close = toplevel_close};

static void global(void *data, struct wl_registry *registry, uint32_t name, const char *interface, uint32_t version)
{
    (void)data, (void)version;
    if (strcmp(interface, "wl_compositor") == 0)
        compositor = wl_registry_bind(registry, name, &wl_compositor_interface, 1);
    else if (strcmp(interface, "wl_shm") == 0)
        shm = wl_registry_bind(registry, name, &wl_shm_interface, 1);
    else if (strcmp(interface, "xdg_wm_base") == 0)
        base = wl_registry_bind(registry, name, &xdg_wm_base_interface, 1);
}

static void global_gone(void *data, struct wl_registry *registry, uint32_t name)
{
    (void)data, (void)registry, (void)name;
}

static const struct wl_registry_listener on_global = {global, global_gone};

int main(int count, char **words)
{
    struct wl_display *display;
    struct wl_registry *registry;
    struct wl_shm_pool *pool;
    struct xdg_surface *shell_surface;
    int bytes, file;

    if (count != 4 && count != 6)
        return 2;
    width = atoi(words[1]);
    height = atoi(words[2]);
    left_to_show = atoi(words[3]);
    if (count == 6) {
        part_width = atoi(words[4]);
        part_height = atoi(words[5]);
    }
    bytes = 4 * width * height;
    display = wl_display_connect(NULL);
    if (!display)
        fail("connect");
    registry = wl_display_get_registry(display);
    wl_registry_add_listener(registry, &on_global, NULL);
    wl_display_roundtrip(display);
    file = memfd_create("frames", 0);
    if (!compositor || !shm || !base || file < 0 || ftruncate(file, 2 * bytes) < 0)
        fail("globals");
    pixels = mmap(NULL, 2 * (size_t)bytes, PROT_READ | PROT_WRITE, MAP_SHARED, file, 0);
    if (pixels == MAP_FAILED)
        fail("mmap");
    pool = wl_shm_create_pool(shm, file, 2 * bytes);
    buffers[0] = wl_shm_pool_create_buffer(pool, 0, width, height, 4 * width, WL_SHM_FORMAT_XRGB8888);
    buffers[1] = wl_shm_pool_create_buffer(pool, bytes, width, height, 4 * width, WL_SHM_FORMAT_XRGB8888);
    xdg_wm_base_add_listener(base, &on_ping, NULL);
    surface = wl_compositor_create_surface(compositor);
    shell_surface = xdg_wm_base_get_xdg_surface(base, surface);
    xdg_surface_add_listener(shell_surface, &on_configure, NULL);
    xdg_toplevel_add_listener(xdg_surface_get_toplevel(shell_surface), &on_toplevel, NULL);
    wl_surface_commit(surface);
    while (wl_display_dispatch(display) >= 0) {
    }
    fail("dispatch");
}
