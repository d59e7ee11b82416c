/* Heap sort of 1,024 words: how many neighbours are out of order behind it, the least and the greatest. */
unsigned heap[1024];

void fill(void) {
    unsigned seed = 7;
    int i;
    for (i = 0; i < 1024; i = i + 1) {
        seed = seed * 1664525 + 1013904223;
        heap[i] = seed;
    }
}

void sift(int top, int size) {
    unsigned value = heap[top];
    int child = top + top + 1;
    while (child < size) {
        if (child + 1 < size && heap[child + 1] > heap[child])
            child = child + 1;
        if (heap[child] <= value)
            break;
        heap[top] = heap[child];
        top = child;
        child = top + top + 1;
    }
    heap[top] = value;
}

int main(void) {
    int i;
    int wrong = 0;
    fill();
    for (i = 511; i >= 0; i = i - 1)
        sift(i, 1024);
    for (i = 1023; i > 0; i = i - 1) {
        unsigned greatest = heap[0];
        heap[0] = heap[i];
        heap[i] = greatest;
        sift(0, i);
    }
    for (i = 1; i < 1024; i = i + 1)
        if (heap[i - 1] > heap[i])
            wrong = wrong + 1;
    out(wrong);
    out(heap[0]);
    out(heap[1023]);
}
