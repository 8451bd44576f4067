/* ask WORD..: tells the host `@WORD..` on the console and stops the machine until the host has done it: QEMU stops when
   its pvpanic device, at port 0x505, is told of a panic, and goes on when the host says so. */
#include <stdio.h>
#include <sys/io.h>
#include <termios.h>

int main(int count, char **words)
{
    FILE *console = fopen("/dev/console", "w");
    if (console == NULL || ioperm(0x505, 1, 1) != 0)
        return perror("ask"), 1;
    for (int at = 1; at < count; at++)
        fprintf(console, "%s%s", at == 1 ? "@" : " ", words[at]);
    fputc('\n', console);
    fflush(console);
    tcdrain(fileno(console));
    outb(1, 0x505);
    return 0;
}
