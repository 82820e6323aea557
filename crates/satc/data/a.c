int main(void)
{
  sample_out(sub(add(32767, 1), 32767));
  return 0;
}
