// Runs the sketch once, as one start of the board.
#include "Counter.ino"

int main()
{
    setup();
    loop();
    SPI.transferFile("wb", false);
    return 0;
}
