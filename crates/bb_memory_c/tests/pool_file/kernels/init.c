// The first program of a virtual machine: runs the commands of the file `/commands`, one on each
// line, says how each has ended, and switches the machine off. gate/kernels.py says what for. With
// an argument, it is the machine's command `sleep`.
#include <stdio.h>
#include <stdlib.h>
#include <string.h>
#include <sys/mount.h>
#include <sys/reboot.h>
#include <sys/stat.h>
#include <sys/wait.h>
#include <unistd.h>

enum {
    LONGEST_LINE = 200,
    MOST_WORDS = 10
};

// Mounts a file system of this kind, and prints a line if that fails.
static void mount_at(const char *kind, const char *at) {
    mkdir(at, 0755);
    if (mount(kind, at, kind, 0, NULL) != 0)
        perror(at);
}

// Runs a command to its end, and returns its exit status, or -1 if a signal ended it.
static int run(char *line) {
    char *words[MOST_WORDS + 1] = {NULL};
    int count = 0;
    for (char *word = strtok(line, " \n"); word != NULL && count < MOST_WORDS;
         word = strtok(NULL, " \n"))
        words[count++] = word;
    const pid_t child = fork();
    if (child == 0) {
        execv(words[0], words);
        _exit(127);
    }
    int status;
    if (child < 0 || waitpid(child, &status, 0) != child || !WIFEXITED(status))
        return -1;
    return WEXITSTATUS(status);
}

int main(int argc, char **argv) {
    char line[LONGEST_LINE];
    char shown[LONGEST_LINE];
    if (argc > 1)
        return (int)sleep((unsigned)atoi(argv[1]));
    mount_at("proc", "/proc");
    mount_at("devtmpfs", "/dev");
    mount_at("tmpfs", "/dev/shm");
    mount_at("tmpfs", "/tmp");
    chmod("/dev/shm", 0755);
    setvbuf(stdout, NULL, _IOLBF, 0);
    printf("init: pages of %ld bytes\n", sysconf(_SC_PAGESIZE));
    FILE *commands = fopen("/commands", "r");
    if (commands == NULL)
        perror("/commands");
    while (commands != NULL && fgets(line, sizeof line, commands) != NULL) {
        strcpy(shown, line);
        shown[strcspn(shown, "\n")] = 0;
        printf("init: status %d: %s\n", run(line), shown);
    }
    fflush(stdout);
    sync();
    reboot(RB_POWER_OFF);
}
