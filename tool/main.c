/* The program behind ./esquirmell: everything is in command.c. */
#include "command.h"

int main(int count, char **word) { return command(count, word, stdin, stdout, stderr); }
