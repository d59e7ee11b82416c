unsigned char text[3];

int main(void) {
  text[0] = 511;
  text[1] = text[0] + 1;
  out(text[0]);
  out(text[1]);
  out(text[0] - 256 < 0);
}
