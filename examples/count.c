int main(void)
{
  Word16 i;
  for (i = 0; i < 5; i++) {
    if (i == 3) sample_out(div_s(i, 2));
    sample_out(i);
  }
  return 0;
}
