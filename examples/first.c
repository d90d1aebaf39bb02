char a[4];
int main(void){ a[3]=1; put(a[3]); return 0; }
