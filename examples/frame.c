/*
 * A parser of the frames of a sensor on a serial line. A frame is the byte 0xAA, a length of 1 to 8, so many bytes of
 * data, and a checksum: the sum of length and data modulo 256.
 *
 * Input:  up to 200 bytes from the line, with noise between the frames.
 * Output: for each good frame the letter 'F' and its data; for a bad length 'L', for a bad checksum 'C'.
 * Value:  the number of good frames, and 256 for each bad one.
 *
 * The parser takes one byte at a time and is never further behind than that, so the loop over the line is the only one
 * that waits for input: it ends at the latest after 200 bytes, and its body starts at least once, since it is there that
 * the end is seen. A frame that is written has 1 to 8 bytes of data, since a length of another value never gets past the
 * state 1. Each state is left for the next one, one byte a step: a length comes behind a start, data that are complete behind
 * a good length, and a checksum behind these. What is written was data.
 */

#pragma flowrestriction 1*good_length + 1*bad_length <= 1*start
#pragma flowrestriction 1*complete <= 1*good_length
#pragma flowrestriction 1*good + 1*bad_sum <= 1*complete
#pragma flowrestriction 1*data_out <= 1*data_in

static unsigned char data[8];
static int state;                       /* 0 waits for 0xAA, 1 for the length, 2 for data, 3 for the checksum */
static int length, taken;
static unsigned char sum;
static int good_frames, bad_frames;

static void write_frame(void)
{
    int i;

    putchar('F');
    #pragma loopbound min 1 max 8
    for (i = 0; i < length; i++) {
        #pragma marker data_out
        putchar(data[i]);
    }
}

static void reject(char why)
{
    putchar(why);
    bad_frames++;
    state = 0;
}

static void take(unsigned char byte)
{
    switch (state) {
    case 0:
        if (byte == 0xAA) {
            #pragma marker start
            state = 1;
        }
        break;
    case 1:
        if (byte < 1 || byte > 8) {
            #pragma marker bad_length
            reject('L');
            break;
        }
        #pragma marker good_length
        length = byte;
        taken = 0;
        sum = byte;
        state = 2;
        break;
    case 2:
        #pragma marker data_in
        data[taken++] = byte;
        sum += byte;
        if (taken == length) {
            #pragma marker complete
            state = 3;
        }
        break;
    case 3:
        if (byte != sum) {
            #pragma marker bad_sum
            reject('C');
            break;
        }
        #pragma marker good
        write_frame();
        good_frames++;
        state = 0;
    }
}

int main(void)
{
    int count;

    #pragma loopbound min 1 max 200
    for (count = 0; count < 200; count++) {
        int c = getchar();

        if (c == -1)
            break;
        take(c);
    }
    return good_frames + 256 * bad_frames;
}
