import javax.persistence.Column;
import javax.persistence.Entity;
import javax.persistence.Id;
import javax.persistence.Table;

/** What EclipseLink keeps in one table. */
@Entity
@Table(name = "GOODS")
public class Goods {
    @Id
    @Column(name = "K")
    int key;
    @Column(name = "V")
    String name;
    @Column(name = "AMOUNT")
    long amount;
    @Column(name = "PICTURE")
    byte[] picture;

    public Goods() {}

    Goods(int key, String name, long amount, byte[] picture) {
        this.key = key;
        this.name = name;
        this.amount = amount;
        this.picture = picture;
    }
}
