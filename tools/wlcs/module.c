/* Canonical's wlcs over wlframe: starts `wlframe serve` and tools/bridge for each test, and gives wlcs sockets of the bridge's.
 *
 * The pointer is the server's viewer: each call is a line of it, and returns once a sync behind it is answered. Windows are placed by mend.c where that is preloaded, and
 * else not at all; a window counts as placed once the viewer is told so. There is no touch.
 * Environment: WLFRAME and BRIDGE name the programs, WLCS_DIR a folder for this run. */
#define _GNU_SOURCE
#include <dlfcn.h>
#include <fcntl.h>
#include <signal.h>
#include <stdarg.h>
#include <stdio.h>
#include <stdlib.h>
#include <string.h>
#include <sys/prctl.h>
#include <sys/socket.h>
#include <sys/stat.h>
#include <sys/un.h>
#include <sys/wait.h>
#include <time.h>
#include <unistd.h>
#include <wayland-client.h>
#include <wlcs/display_server.h>
#include <wlcs/pointer.h>
#include <wlcs/touch.h>

#define SIZE "1280x1024"
#define FAILED 97 /* the status where the rig itself fails, and not a test */
enum { SERVER, BRIDGE, VIEWER, COUNT };
static char paths[COUNT][320], folder[256];
static pid_t processes[2];

static void note(const char *form, ...)
{
    va_list rest;
    va_start(rest, form);
    fprintf(stderr, "module: ");
    vfprintf(stderr, form, rest);
    fprintf(stderr, "\n");
    va_end(rest);
}

static void fail(const char *why)
{
    note("%s", why);
    exit(FAILED);
}

static double now(void) /* milliseconds */
{
    struct timespec t;
    clock_gettime(CLOCK_MONOTONIC, &t);
    return t.tv_sec * 1e3 + t.tv_nsec / 1e6;
}

static void nap(double milliseconds)
{
    struct timespec t = {0, (long)(milliseconds * 1e6)};
    nanosleep(&t, NULL);
}

static const char *named(const char *name)
{
    const char *it = getenv(name);
    if (!it || !*it) fail("WLFRAME, BRIDGE and WLCS_DIR have to be set");
    return it;
}

static int connected(const char *path)
{
    struct sockaddr_un address = {.sun_family = AF_UNIX};
    int made = socket(AF_UNIX, SOCK_STREAM | SOCK_CLOEXEC, 0);
    double until = now() + 10000; /* a socket may be there and not be listened to yet */
    strncpy(address.sun_path, path, sizeof address.sun_path - 1);
    while (connect(made, (struct sockaddr *)&address, sizeof address) != 0 && now() < until) nap(5);
    if (now() >= until) fail("a socket can't be connected to");
    return made;
}

/* ---- the viewer ---- */
static FILE *viewer;
static unsigned last_sync;
static int pointer_x, pointer_y;

static void skip(size_t count)
{
    char piece[4096];
    while (count > 0) {
        size_t part = count < sizeof piece ? count : sizeof piece;
        if (fread(piece, 1, part, viewer) != part) fail("the viewer's connection ended");
        count -= part;
    }
}

static void skip_update(unsigned runs)
{
    for (unsigned k = 0; k < runs; k++) {
        unsigned char head[12];
        if (fread(head, 1, sizeof head, viewer) != sizeof head) fail("the viewer's connection ended");
        skip(4 * (head[8] + 256u * head[9] + 65536u * head[10])); /* a run is at most 4,096 pixels wide */
    }
}

/* Sends lines and a sync, and takes what is told until that is answered. Where a surface is asked for it answers whether it stands at this place. */
static int told(const char *lines, uint32_t surface, int x, int y)
{
    char line[128], request[256];
    int is_there = 0;
    int length = snprintf(request, sizeof request, "%ssync %u\n", lines, ++last_sync);
    if (write(fileno(viewer), request, length) != length) fail("the viewer's connection ended");
    while (fgets(line, sizeof line, viewer)) {
        unsigned first, second, client, id;
        int left, top;
        if (sscanf(line, "frame %u %u", &first, &second) == 2) skip_update(second);
        if (sscanf(line, "window %u %u %d %d", &client, &id, &left, &top) == 4) is_there |= id == surface && left == x && top == y;
        if (sscanf(line, "synced %u", &first) == 1 && first == last_sync) return is_there;
    }
    fail("the viewer's connection ended");
    return 0;
}

static void connect_viewer(void)
{
    char greeting[128];
    viewer = fdopen(connected(paths[VIEWER]), "r+");
    if (!viewer || !fgets(greeting, sizeof greeting, viewer) || strncmp(greeting, "wlframe 1 ", 10)) fail("the server greets no viewer");
}

/* ---- the pointer ---- */
static void move_to(int x, int y)
{
    char line[64];
    pointer_x = x, pointer_y = y;
    snprintf(line, sizeof line, "motion %d %d\n", x, y);
    told(line, 0, 0, 0);
}

static void button(int code, int is_pressed)
{
    char line[64];
    snprintf(line, sizeof line, "button %d %d\n", code, is_pressed);
    told(line, 0, 0, 0);
}

static void move_absolute(WlcsPointer *it, wl_fixed_t x, wl_fixed_t y) { (void)it, move_to(wl_fixed_to_int(x), wl_fixed_to_int(y)); }
static void move_relative(WlcsPointer *it, wl_fixed_t x, wl_fixed_t y) { (void)it, move_to(pointer_x + wl_fixed_to_int(x), pointer_y + wl_fixed_to_int(y)); }
static void button_up(WlcsPointer *it, int code) { (void)it, button(code, 0); }
static void button_down(WlcsPointer *it, int code) { (void)it, button(code, 1); }
static void no_pointer(WlcsPointer *it) { (void)it; }
static WlcsPointer pointer = {WLCS_POINTER_VERSION, move_absolute, move_relative, button_up, button_down, no_pointer};

static WlcsPointer *create_pointer(WlcsDisplayServer *it)
{
    (void)it;
    note("a pointer is asked for");
    return &pointer;
}

static void touched(WlcsTouch *it, wl_fixed_t x, wl_fixed_t y) { (void)it, (void)x, (void)y; }
static void no_touch(WlcsTouch *it) { (void)it; }
static WlcsTouch touch = {WLCS_TOUCH_VERSION, touched, touched, no_touch, no_touch};

static WlcsTouch *create_touch(WlcsDisplayServer *it)
{
    (void)it;
    note("touch is asked for, and isn't there");
    return &touch;
}

static void position_window(WlcsDisplayServer *server, wl_display *client, wl_surface *surface, int x, int y)
{
    typedef int (*mender)(wl_display *, wl_surface *, int, int, int *, int *);
    mender place = (mender)dlsym(RTLD_DEFAULT, "mend_position");
    int left = x, top = y;
    (void)server;
    note("a window is wanted at %d, %d%s", x, y, place ? "" : ", and isn't placed");
    if (!place || !place(client, surface, x, y, &left, &top)) return;
    double until = now() + 5000;
    while (!told("windows\n", wl_proxy_get_id((struct wl_proxy *)surface), left, top) && now() < until) nap(5);
}

/* ---- the server and the bridge ---- */
static pid_t spawn(char **words, const char *output)
{
    pid_t it = fork();
    if (it == 0) {
        char path[600];
        prctl(PR_SET_PDEATHSIG, SIGKILL);
        snprintf(path, sizeof path, "%s/%s", folder, output);
        int file = open(path, O_WRONLY | O_CREAT | O_TRUNC, 0644);
        dup2(file, 1), dup2(file, 2);
        execv(words[0], words);
        _exit(127);
    }
    return it;
}

static void await(const char *path, pid_t process)
{
    for (double until = now() + 60000; access(path, F_OK) != 0; nap(1))
        if (now() > until || waitpid(process, NULL, WNOHANG) == process) fail("the server or the bridge doesn't come up");
}

static void start(WlcsDisplayServer *it)
{
    static const char *const names[COUNT] = {"server", "wayland", "viewer"};
    char pools[320], trace[320];
    (void)it;
    unsetenv("LD_PRELOAD");
    snprintf(folder, sizeof folder, "%s", named("WLCS_DIR"));
    snprintf(pools, sizeof pools, "%s/pools", folder);
    snprintf(trace, sizeof trace, "%s/trace", folder);
    mkdir(pools, 0755);
    for (int k = 0; k < COUNT; k++) snprintf(paths[k], sizeof paths[k], "%s/%s", folder, names[k]), unlink(paths[k]);
    char *server[] = {(char *)named("WLFRAME"), "serve", "--socket", paths[SERVER], "--viewer", paths[VIEWER], "--rate", "100", "--dir", pools, "--size", SIZE, NULL};
    char *bridge[] = {(char *)named("BRIDGE"), "--listen", paths[BRIDGE], "--server", paths[SERVER], "--dir", pools, "--trace", trace, NULL};
    processes[SERVER] = spawn(server, "server.out");
    await(paths[VIEWER], processes[SERVER]);
    processes[BRIDGE] = spawn(bridge, "bridge.out");
    await(paths[BRIDGE], processes[BRIDGE]);
    connect_viewer();
}

static void stop(WlcsDisplayServer *it)
{
    (void)it;
    if (waitpid(processes[SERVER], NULL, WNOHANG) == processes[SERVER]) fail("the server had ended by itself");
    if (viewer) fclose(viewer);
    for (int k = BRIDGE; k >= SERVER; k--)
        if (processes[k] > 0) kill(processes[k], SIGTERM), waitpid(processes[k], NULL, 0);
}

static int create_client_socket(WlcsDisplayServer *it) { (void)it; return connected(paths[BRIDGE]); }

static WlcsExtensionDescriptor const extensions[] = {{"wl_compositor", 4}, {"wl_subcompositor", 1}, {"wl_shm", 1}, {"wl_output", 3},
                                                     {"wl_seat", 7}, {"xdg_wm_base", 3}, {"wl_data_device_manager", 3}};
static WlcsIntegrationDescriptor const descriptor = {WLCS_INTEGRATION_DESCRIPTOR_VERSION, sizeof extensions / sizeof *extensions, extensions};
static WlcsIntegrationDescriptor const *get_descriptor(WlcsDisplayServer const *it) { (void)it; return &descriptor; }

static WlcsDisplayServer display_server = {WLCS_DISPLAY_SERVER_VERSION, start, stop, create_client_socket, position_window, create_pointer,
                                           create_touch, get_descriptor, NULL};
static WlcsDisplayServer *create_server(int argc, char const **argv) { (void)argc, (void)argv; return &display_server; }
static void destroy_server(WlcsDisplayServer *it) { (void)it; }
WlcsServerIntegration const wlcs_server_integration = {WLCS_SERVER_INTEGRATION_VERSION, create_server, destroy_server};
