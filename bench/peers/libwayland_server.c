/* libwayland's server on a socket, with no globals: what a round trip over a socket costs beside it.
 *
 *     libwayland_server PATH
 *
 * Serves whoever connects to PATH until it is ended. */
#include <stdio.h>
#include <string.h>
#include <sys/socket.h>
#include <sys/un.h>
#include <wayland-server.h>

int main(int count, char **words)
{
    struct sockaddr_un place = {.sun_family = AF_UNIX};
    struct wl_display *display;
    int listening;

    if (count != 2 || strlen(words[1]) >= sizeof place.sun_path) {
        fprintf(stderr, "libwayland_server PATH\n");
        return 2;
    }
    strcpy(place.sun_path, words[1]);
    listening = socket(AF_UNIX, SOCK_STREAM | SOCK_CLOEXEC, 0);
    if (listening < 0 || bind(listening, (struct sockaddr *)&place, sizeof place) || listen(listening, 128)) {
        perror(words[1]);
        return 1;
    }
    display = wl_display_create();
    if (!display || wl_display_add_socket_fd(display, listening)) {
        perror("wl_display");
        return 1;
    }
    wl_display_run(display);
    return 0;
}
