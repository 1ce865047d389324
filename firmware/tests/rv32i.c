/* A core with neither M nor C: rv32i.flags builds for it, rv32i.keys lets the job be one. The product is made in
 * software, by a function of libgcc. */
int main(void)
{
    volatile int six = 6, seven = 7;
    return six * seven;
}
