/* Runs a program with its words and then writes, behind what that wrote to standard error, the most memory that was resident in KB, as
   a line of its own. The status is the program's, or 128 and the number of the signal that ended it. The program is a child of this small
   one, so that nothing of a larger caller is counted. */
#include <stdio.h>
#include <sys/resource.h>
#include <sys/wait.h>
#include <unistd.h>

int main(int count, char **words) {
  if (count < 2) return 126;
  pid_t child = fork();
  if (child == 0) {
    execv(words[1], words + 1);
    _exit(127);
  }
  int status;
  struct rusage used;
  if (child < 0 || wait4(child, &status, 0, &used) < 0) return 126;
  fprintf(stderr, "\n%ld\n", used.ru_maxrss);
  return WIFEXITED(status) ? WEXITSTATUS(status) : 128 + WTERMSIG(status);
}
