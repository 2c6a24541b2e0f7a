int g;int f(int x){_Pragma("loopbound min 0 max 8") while(x>0){_Pragma("marker t") x--;g++;}return x;}int main(void){_Pragma("flowrestriction 1*t <= 6*main") f(1);f(2);f(3);return g;}
