int main(void)
{
  sample_out(sub(add(32767, 1), 32767));
  sample_out(add(sub(5, 9), sub(9, 5)));
  return 0;
}
