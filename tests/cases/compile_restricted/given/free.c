int main(void){int i,j,s=0;_Pragma("loopbound min 10 max 10") for(i=0;i<10;i++){_Pragma("loopbound min 1 max 10") for(j=0;j<=i;j++){_Pragma("marker body") s+=j;}}return s;}
