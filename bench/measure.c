// measure FILE COMMAND WORD..: runs the command with its output in FILE, and prints its seconds of processor time, the
// most memory that it had, in kilobytes, and its status. A command that Python starts would be told Python's own memory
// at least, since the kernel keeps that mark over exec; this program is small.
#include <fcntl.h>
#include <stdio.h>
#include <sys/resource.h>
#include <sys/wait.h>
#include <unistd.h>

int main(int count, char **words) {
  int out, status;
  struct rusage used;
  if (count < 3 || (out = open(words[1], O_WRONLY | O_CREAT | O_TRUNC, 0666)) < 0) return 2;
  pid_t child = fork();
  if (child == 0) {
    dup2(out, 1);
    dup2(out, 2);
    execv(words[2], words + 2);
    _exit(127);
  }
  if (child < 0 || wait4(child, &status, 0, &used) < 0) return 2;
  double seconds = used.ru_utime.tv_sec + used.ru_stime.tv_sec + (used.ru_utime.tv_usec + used.ru_stime.tv_usec) / 1e6;
  printf("%.3f %ld %d\n", seconds, used.ru_maxrss, WIFEXITED(status) ? WEXITSTATUS(status) : 128 + WTERMSIG(status));
  return 0;
}
