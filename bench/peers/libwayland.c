/* libwayland's server, fed with a stream of messages: how long it takes to answer them.
 *
 *     libwayland FILE CLIENTS ANSWER
 *
 * FILE holds what one client sends, and ANSWER is how many bytes the server answers it with. Each of CLIENTS clients sends
 * the file through a socket pair, one after the other. Prints the seconds. */
#include <errno.h>
#include <stdio.h>
#include <stdlib.h>
#include <sys/socket.h>
#include <time.h>
#include <unistd.h>
#include <wayland-server.h>

static const struct wl_interface wm_base = {"xdg_wm_base", 1, 0, NULL, 0, NULL};

static void bind_plainly(struct wl_client *client, void *data, uint32_t version, uint32_t id)
{
    wl_resource_create(client, data, (int)version, id);
}

static void bind_shm(struct wl_client *client, void *data, uint32_t version, uint32_t id)
{
    struct wl_resource *shm = wl_resource_create(client, &wl_shm_interface, (int)version, id);
    (void)data;
    wl_shm_send_format(shm, WL_SHM_FORMAT_ARGB8888);
    wl_shm_send_format(shm, WL_SHM_FORMAT_XRGB8888);
}

static void bind_seat(struct wl_client *client, void *data, uint32_t version, uint32_t id)
{
    (void)data;
    wl_seat_send_capabilities(wl_resource_create(client, &wl_seat_interface, (int)version, id), WL_SEAT_CAPABILITY_POINTER);
}

static void fail(const char *what)
{
    perror(what);
    exit(1);
}

static void serve(struct wl_display *display, const char *bytes, size_t count, size_t answer)
{
    int ends[2];
    size_t sent = 0, read_back = 0;
    char buffer[65536];

    if (socketpair(AF_UNIX, SOCK_STREAM | SOCK_NONBLOCK | SOCK_CLOEXEC, 0, ends))
        fail("socketpair");
    struct wl_client *client = wl_client_create(display, ends[0]);
    if (!client)
        fail("wl_client_create");
    while (sent < count || read_back < answer) {
        if (sent < count) {
            size_t piece = count - sent < 65536 ? count - sent : 65536;
            ssize_t n = write(ends[1], bytes + sent, piece);
            if (n > 0)
                sent += (size_t)n;
            else if (errno != EAGAIN)
                fail("write");
        }
        wl_event_loop_dispatch(wl_display_get_event_loop(display), 0);
        wl_display_flush_clients(display);
        ssize_t n;
        while ((n = read(ends[1], buffer, sizeof buffer)) > 0)
            read_back += (size_t)n;
        if (n == 0) {
            fprintf(stderr, "the server ended its client\n");
            exit(1);
        }
    }
    close(ends[1]);
    wl_event_loop_dispatch(wl_display_get_event_loop(display), 0);
}

int main(int argc, char **argv)
{
    if (argc != 4)
        return 2;
    FILE *file = fopen(argv[1], "rb");
    if (!file || fseek(file, 0, SEEK_END))
        fail(argv[1]);
    size_t count = (size_t)ftell(file);
    char *bytes = malloc(count);
    rewind(file);
    if (!bytes || fread(bytes, 1, count, file) != count)
        fail(argv[1]);

    struct wl_display *display = wl_display_create();
    wl_global_create(display, &wl_compositor_interface, 2, (void *)&wl_compositor_interface, bind_plainly);
    wl_global_create(display, &wl_subcompositor_interface, 1, (void *)&wl_subcompositor_interface, bind_plainly);
    wl_global_create(display, &wl_shm_interface, 1, NULL, bind_shm);
    wl_global_create(display, &wl_output_interface, 1, (void *)&wl_output_interface, bind_plainly);
    wl_global_create(display, &wl_seat_interface, 1, NULL, bind_seat);
    wl_global_create(display, &wm_base, 1, (void *)&wm_base, bind_plainly);

    struct timespec start, end;
    clock_gettime(CLOCK_PROCESS_CPUTIME_ID, &start);
    for (long k = atol(argv[2]); k > 0; k--)
        serve(display, bytes, count, (size_t)atol(argv[3]));
    clock_gettime(CLOCK_PROCESS_CPUTIME_ID, &end);
    printf("%f\n", (double)(end.tv_sec - start.tv_sec) + (double)(end.tv_nsec - start.tv_nsec) / 1e9);
    wl_display_destroy(display);
    return 0;
}
