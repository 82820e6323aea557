int main(void)
{
  sample_out(add(32767, 1));
  return 0;
}
