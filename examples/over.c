char a[4];
int main(void){ put(7); a[4]=1; put(8); return 0; }
